//! Ten versions of a sensor's report and ten of a host's commands, each with its number.

/// What a sensor sends.
struct Telemetry1 {
    id: u16,
    temp: i16,
}

/// The number is wider.
struct Telemetry2 {
    id: u32,
    temp: i16,
}

/// A field is added.
struct Telemetry3 {
    id: u32,
    temp: i16,
    label: String,
}

/// A field is renamed.
struct Telemetry4 {
    id: u32,
    celsius: i16,
    label: String,
}

struct Head {
    id: u32,
    celsius: i16,
}

/// Two fields are put into a struct.
struct Telemetry5 {
    head: Head,
    label: String,
}

/// A list is added.
struct Telemetry6 {
    head: Head,
    label: String,
    samples: Vec<i16>,
}

/// The list's elements are wider.
struct Telemetry7 {
    head: Head,
    label: String,
    samples: Vec<i32>,
}

/// An option is added.
struct Telemetry8 {
    head: Head,
    label: String,
    samples: Vec<i32>,
    battery: Option<u8>,
}

enum Battery {
    Unknown,
    Percent(u8),
}

/// The option is made an enum.
struct Telemetry9 {
    head: Head,
    label: String,
    samples: Vec<i32>,
    battery: Battery,
}

/// A field is moved.
struct Telemetry10 {
    label: String,
    head: Head,
    samples: Vec<i32>,
    battery: Battery,
}

/// What a host sends.
enum Command1 {
    Stop,
    SetRate(u16),
}

/// A variant is added.
enum Command2 {
    Stop,
    SetRate(u16),
    SetMode { mode: u8 },
}

/// A number is wider.
enum Command3 {
    Stop,
    SetRate(u32),
    SetMode { mode: u8 },
}

/// A variant is renamed.
enum Command4 {
    Halt,
    SetRate(u32),
    SetMode { mode: u8 },
}

/// A variant is added.
enum Command5 {
    Halt,
    SetRate(u32),
    SetMode { mode: u8 },
    Reset(Option<u8>),
}

/// A content gets a name.
enum Command6 {
    Halt,
    SetRate { hertz: u32 },
    SetMode { mode: u8 },
    Reset(Option<u8>),
}

enum When {
    Now,
    After(u8),
}

/// The option is made an enum.
enum Command7 {
    Halt,
    SetRate { hertz: u32 },
    SetMode { mode: u8 },
    Reset(When),
}

/// Two variants are exchanged.
enum Command8 {
    Halt,
    SetMode { mode: u8 },
    SetRate { hertz: u32 },
    Reset(When),
}

/// A number has a sign.
enum Command9 {
    Halt,
    SetMode { mode: i8 },
    SetRate { hertz: u32 },
    Reset(When),
}

/// A variant is added.
enum Command10 {
    Halt,
    SetMode { mode: i8 },
    SetRate { hertz: u32 },
    Reset(When),
    Log { level: u8, text: String },
}
