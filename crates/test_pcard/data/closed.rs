struct A(u8));
