struct A { a: u8 }
    struct A;
