struct A;
struct B
