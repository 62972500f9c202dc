struct A;
struct {}
