struct Größe(u8);
struct Fields { größe: u8 }
