// Types of many words: of A13 65,532, of Longest 65,536, as many as a type may have, and of Longer one more.
struct A0(u8);
struct A1(A0, A0);
struct A2(A1, A1);
struct A3(A2, A2);
struct A4(A3, A3);
struct A5(A4, A4);
struct A6(A5, A5);
struct A7(A6, A6);
struct A8(A7, A7);
struct A9(A8, A8);
struct A10(A9, A9);
struct A11(A10, A10);
struct A12(A11, A11);
struct A13(A12, A12);
struct Longest { a: A13 }
struct Longer { a: A13, }
