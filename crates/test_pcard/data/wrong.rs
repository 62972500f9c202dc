// Declarations that are wrong, each where a type of it is asked for.
struct Unknown {
    id: u9,
}
struct Page<T> { of: T }
struct Node { value: u8, next: Option<Box<Node>> }
struct First(Second);
type Second = [Third; 2];
enum Third { End, More(First) }
struct NoBody = 3;
enum NoBrace(u8);
type NoEquals { u8 }
struct NoColon { id u8 }
struct Uncounted { data: [u8; N] }
struct Twice { id: u8, id: u16 }
enum Same { A, B, A }
struct NoBytes { all: Vec<()> }
/* ä */ struct Kept { r#type: u8 }
struct Inner(Outer);
struct Outer { a: u8, b: Unknown }
struct Text { text: "u8" }
