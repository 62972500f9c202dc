struct A { a: u8 }
/* a comment /* in a comment */
struct B;
