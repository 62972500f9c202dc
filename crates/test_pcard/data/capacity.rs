pub struct Packet { id: u8, data: heapless::Vec<u8, 8> }
struct Name(heapless::String<16>);
enum Event { Boot, Data { name: heapless::String<16>, at: u32 } }
