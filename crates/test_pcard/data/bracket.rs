struct A {
    a: [u8; 3,
}
