//! Forms that Rust and its formatter write: a comma behind the last field, raw literals, and discriminants of each kind.
/* a comment /* in /* a comment /* in /* a comment */ in */ a comment */ in */ a comment */
const QUOTED: &str = r#"a " b"#;
const PATH: &str = r"C:\";
const HIDDEN: &str = r##"struct Newtype(u9); "# } /* "##;
const BYTES: (&[u8], &[u8], &[u8], &CStr) = (br#"a " b"#, br"\", b"}\"", c"{");
const RAW_C: &CStr = cr#"" }"#;

struct Newtype(u8,);
struct Pair(
    u8,
    u16,
);
struct One((u8,),);
enum Either { Left(u8,), Right((u8,),), Both(u8, u16,), Neither }
struct Lists { list: Vec<u8,>, map: BTreeMap<u8, Vec<u16,>,>, both: Result<u8, bool,> }

#[repr(isize)]
enum Coded {
    Plain,
    Shifted = 1 << 3,
    Summed = (1 + 2),
    Letter = b'a' as isize,
    Limit = crate::LIMIT as isize,
    Block = { 5 },
    Call(u8) = size_of::<Coded>() as isize + size(&[Newtype(1,), Pair], ",", '}', (Coded, Newtype)),
    Chosen { code: u16 } = match LIMIT { 0 => { 1 } _ => 2, },
    Counted = r#",}"#.len() as isize,
    Negative = -2,
    Either(Either) = if A == 1 { 6 } else { 7 },
    Last = 1 + Pair::SIZE
}
