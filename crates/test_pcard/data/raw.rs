struct A(u8);
const B: &str = r#"a"; // "
