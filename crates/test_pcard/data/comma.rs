struct A(,);
enum B { C = d::<u8, E>(), F }
struct G { h: u8 = 5 }
