//! What a sensor node without an allocator sends: every text and list has a capacity, or is lent.
#![cfg_attr(not(test), no_std)]
use heapless::{FnvIndexMap, String, Vec};
use serde::{Deserialize, Serialize};

/// The longest name, in bytes of UTF-8.
pub const NAME: usize = 16;

/// Sent each second.
#[derive(Clone, Debug, PartialEq, Serialize, Deserialize)]
pub struct Heartbeat {
    /// Milliseconds since the start.
    pub uptime: u64,
    pub battery: u16,
    pub temp: i16,
    pub flags: u8,
}

/// Four fields: the record of docs/C_COSTS.md.
#[derive(Clone, Debug, PartialEq, Serialize, Deserialize)]
pub struct Record<'a> {
    pub number: u32,
    pub short: u16,
    pub byte: Option<u8>,
    #[serde(borrow)]
    pub text: &'a str,
}

/// Samples of an inertial unit.
#[derive(Clone, Debug, PartialEq, Serialize, Deserialize)]
pub struct Imu {
    pub t: u32,
    pub accel: [i16; 3],
    pub gyro: (f32, f32, f32),
    pub quat: [f64; 4],
}

/// What the node is.
#[derive(Clone, Debug, PartialEq, Serialize, Deserialize)]
pub struct Info {
    pub serial: u128,
    pub mac: [u8; 6],
    pub name: String<NAME>,
    pub version: (u8, u8, u16),
    pub class: Class,
}

#[derive(Clone, Copy, Debug, PartialEq, Serialize, Deserialize)]
#[repr(u8)]
pub enum Class {
    Sensor = 1,
    Actuator = 2,
    Gateway = 7,
}

/// A part of an image of firmware.
#[derive(Clone, Debug, PartialEq, Serialize, Deserialize)]
pub struct Chunk<'a> {
    #[serde(with = "postcard::fixint::le")]
    pub offset: u32,
    #[serde(with = "postcard::fixint::be")]
    pub check: i16,
    pub data: &'a [u8],
}

/// A line of a log.
#[derive(Clone, Debug, PartialEq, Serialize, Deserialize)]
pub enum Log<'a> {
    Text(&'a str),
    /// The number of a text, with its arguments.
    Coded { code: u16, args: Vec<Arg, 4> },
    Dropped(u32),
    Silence,
}

#[derive(Clone, Debug, PartialEq, Serialize, Deserialize)]
pub enum Arg {
    Int(i64),
    Float(f64),
    Char(char),
    Flag(bool),
    Name(String<8>),
}

/// Settings, by their number.
#[derive(Clone, Debug, PartialEq, Serialize, Deserialize)]
pub struct Settings {
    pub values: FnvIndexMap<u8, Setting, 8>,
    pub old: Option<Option<u16>>,
}

#[derive(Clone, Debug, PartialEq, Serialize, Deserialize)]
pub struct Setting {
    pub value: i32,
    pub limits: Option<(i32, i32)>,
    pub unit: char,
}

/// An answer.
#[derive(Clone, Debug, PartialEq, Serialize, Deserialize)]
pub struct Answer {
    pub id: u16,
    pub result: Result<Option<u32>, Fault>,
    pub unit: (),
    pub mark: Mark,
}

#[derive(Clone, Debug, PartialEq, Serialize, Deserialize)]
pub struct Mark;

#[derive(Clone, Debug, PartialEq, Serialize, Deserialize)]
pub enum Fault {
    Timeout,
    Busy,
    Refused(String<NAME>),
    Range { min: i8, max: i8, double: i128 },
}

/// All that is sent.
#[derive(Clone, Debug, PartialEq, Serialize, Deserialize)]
pub enum Message<'a> {
    Heartbeat(Heartbeat),
    #[serde(borrow)]
    Record(Record<'a>),
    Imu(Imu),
    Info(Info),
    #[serde(borrow)]
    Chunk(Chunk<'a>),
    #[serde(borrow)]
    Log(Log<'a>),
    Settings(Settings),
    Answer(Answer),
    Names(Vec<String<NAME>, 5>),
    Tiny(Vec<u8, 12>, bool, i8, usize),
}
