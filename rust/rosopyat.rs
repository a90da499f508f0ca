//! Rosopyat for Rust: a safe module over the static library `librosopyat_c.a` (x86-64). See `include/rosopyat.h` for what the formats are.
//!
//! Use this folder as a crate (`rosopyat = { path = "rust" }`), from a program of any edition; or, in a program of an edition up to 2021, put this file
//! beside your source, say `mod rosopyat;` and link with `-L FOLDER`, the folder of the library. Nothing is allocated, kept or shared between calls.

use std::convert::TryFrom;
use std::error::Error;
use std::fmt;

/// Data bytes that a packet has at most, at 300 bps.
pub const MOST_DATA: usize = 4000;
/// A packet buffer of this size is never too short, at 300 bps.
pub const MOST_PACKET: usize = 4006;
/// A text buffer of this size is never too short, at 300 bps.
pub const MOST_TEXT: usize = 85_328;
/// Data bytes that a packet has at most, at 1200 bps.
pub const MOST_DATA_1200: usize = 16_000;
/// A packet buffer of this size is never too short, at 1200 bps.
pub const MOST_PACKET_1200: usize = 16_012;
/// A text buffer of this size is never too short, at 1200 bps.
pub const MOST_TEXT_1200: usize = 341_328;

/// The rate at which a message is sent. Its data stands in sections with two checksum bytes behind each; every section but the last has 4,000 bytes, and none
/// is empty. A packet of one section is the same at both rates.
#[derive(Clone, Copy, Debug, PartialEq, Eq)]
pub enum Rate {
    /// 300 bps: 1 to 4,000 data bytes, which are one section.
    Bps300,
    /// 1200 bps: 1 to 16,000 data bytes, in one to four sections.
    Bps1200,
}

/// The formats, by their number in the flag byte.
#[derive(Clone, Copy, Debug, PartialEq, Eq)]
#[repr(u32)]
pub enum Format {
    /// The data bytes are the text: any bytes.
    Open = 0,
    /// Compacted: characters 63 to 127, space and slash. 3F (`?`) and 7F are both sent as value 63, and read back as 3F.
    PseudoBinary = 1,
    /// Compacted: digits, space and `+ , - . /`, then `# = : E` and line ends. A line end reads back as CR LF, and an odd number of codes with a space
    /// behind the text. A `+` or `-` may not have `+ - # = E` or a line end after it, a `.` not `.` or `:`.
    Numeric = 2,
    /// Compacted: digits, space and `+ , - . /`, then A to Z, `# = : ;` and line ends. A line end reads back as CR LF.
    Shef = 3,
    /// Compacted: characters 32 to 126, HT, CR and LF.
    FullAscii = 4,
}

impl From<Format> for u32 {
    fn from(format: Format) -> u32 {
        format as u32
    }
}

/// The format of a number: 0 to 4.
impl TryFrom<u32> for Format {
    type Error = WriteRefusal;

    fn try_from(number: u32) -> Result<Format, WriteRefusal> {
        match number {
            0 => Ok(Format::Open),
            1 => Ok(Format::PseudoBinary),
            2 => Ok(Format::Numeric),
            3 => Ok(Format::Shef),
            4 => Ok(Format::FullAscii),
            _ => Err(WriteRefusal::OtherFormat),
        }
    }
}

/// What a packet says. The text is borrowed from the buffer that was lent for it.
#[derive(Clone, Copy, Debug, PartialEq, Eq)]
pub struct Reading<'a> {
    pub format: Format,
    pub sync: bool,
    /// Header bits that were put right: 0 up to the number named, or up to 1 where none is.
    pub mended: u32,
    /// Which bits those were: a one for each, in the order of the header's 32 bits, its first byte highest. `mended_bits` lists them.
    pub mask: u32,
    /// Indicators, values and codes that were read; 0 in `Open`. Fill is none, and in `Numeric` there are two in each data byte.
    pub codes: usize,
    /// Data bytes of all sections.
    pub data_length: usize,
    /// Bytes that belong to the packet: `data_length` and 4, and 2 for each section.
    pub used: usize,
    pub text: &'a [u8],
}

impl Reading<'_> {
    /// The header bits that were put right, highest first.
    pub fn mended_bits(&self) -> impl Iterator<Item = HeaderBit> {
        header_bits(self.mask)
    }
}

/// How a packet's data compares with what `write` would have sent for its text.
#[derive(Clone, Copy, Debug, PartialEq, Eq)]
pub struct Judgement {
    /// The first data bit that is not the writer's, which both have; `None` means that the data bytes are just the writer's. Data bits count from 0 through all
    /// sections, without the checksums, the top bit of each byte first.
    pub departs_at: Option<usize>,
    /// Data bytes more than the writer's; never fewer.
    pub more: usize,
}

impl Judgement {
    /// Whether the data bytes are just the writer's.
    pub fn as_ours(&self) -> bool {
        self.departs_at.is_none()
    }
}

/// What a bit of the header belongs to, from the highest bit down.
#[derive(Clone, Copy, Debug, PartialEq, Eq)]
pub enum HeaderPart {
    /// Bit 31: it makes the number of ones in the flag byte odd.
    Parity,
    /// Bits 30 and 29.
    Type,
    /// Bits 28 to 26: the format's number.
    ExtendedType,
    /// Bit 25: time synchronised since the last transmission.
    Sync,
    /// Bit 24, the lowest of the flag byte.
    Spare,
    /// Bits 23 to 10: the length of the data.
    Length,
    /// Bits 9 to 0.
    Check,
}

impl fmt::Display for HeaderPart {
    fn fmt(&self, to: &mut fmt::Formatter) -> fmt::Result {
        to.pad(match self {
            HeaderPart::Parity => "parity",
            HeaderPart::Type => "type",
            HeaderPart::ExtendedType => "extended type",
            HeaderPart::Sync => "sync",
            HeaderPart::Spare => "spare",
            HeaderPart::Length => "length",
            HeaderPart::Check => "check",
        })
    }
}

/// A bit of the header.
#[derive(Clone, Copy, Debug, PartialEq, Eq)]
pub struct HeaderBit {
    /// Its place in the mask, so that `mask >> position & 1` is 1: 31 (the flag's parity bit) down to 0 (the lowest check bit).
    pub position: u32,
    pub part: HeaderPart,
}

/// The bits of a mask, highest first.
pub fn header_bits(mask: u32) -> impl Iterator<Item = HeaderBit> {
    (0..32).rev().filter(move |position| mask >> position & 1 == 1).map(|position| HeaderBit { position, part: part_at(position) })
}

fn part_at(position: u32) -> HeaderPart {
    match position {
        31 => HeaderPart::Parity,
        29..=30 => HeaderPart::Type,
        26..=28 => HeaderPart::ExtendedType,
        25 => HeaderPart::Sync,
        24 => HeaderPart::Spare,
        10..=23 => HeaderPart::Length,
        _ => HeaderPart::Check,
    }
}

/// Why a packet was not read or judged. The text buffer has not changed.
#[derive(Clone, Copy, Debug, PartialEq, Eq)]
pub enum ReadRefusal {
    /// 17, tested first of all: the number of header bits to mend is not one of 0 to 2
    TooManyBits,
    /// 1: fewer than 4 bytes
    Short,
    /// 2: no valid header within the named number of bits of the one received; one bit where none is named
    NoHeader,
    /// 3: the header's type is none of the five formats, or its spare bit is 1
    OtherType,
    /// 4: the length is 0 or above 4,000; at 1200 bps, 0 or above 16,000
    OtherLength,
    /// 5: fewer bytes than the length and 4, and 2 for each section
    CutOff,
    /// 6: with the first section, from 0, whose checksum is not the one that follows it; at 300 bps there is no other than 0
    Checksum { section: usize },
    /// 7: with the data bit at which the first unreadable indicator, value or code starts, and how many of these come before it; data bits count through all
    /// sections, without the checksums
    Malformed { bit: usize, codes: usize },
    /// 8: with the text's length
    NoRoom(usize),
}

/// Why a packet was not written. The packet buffer has not changed.
#[derive(Clone, Copy, Debug, PartialEq, Eq)]
pub enum WriteRefusal {
    /// 8: with the packet's length, the fewest bytes that any packet of that text in that format needs
    NoRoom(usize),
    /// 9: with the index of the first character that has no code in the format, where it stands
    NoCode(usize),
    /// 10: the text is empty
    Empty,
    /// 11: the data would have more than 4,000 bytes; at 1200 bps, more than 16,000. The text fits in no packet of that format, whoever makes it
    TooLong,
    /// 12: the format is not one of 0 to 4; answered where a `Format` is made of its number
    OtherFormat,
}

impl ReadRefusal {
    /// The number of the refusal, 1 to 8 or 17.
    pub fn number(self) -> u32 {
        match self {
            ReadRefusal::TooManyBits => 17,
            ReadRefusal::Short => 1,
            ReadRefusal::NoHeader => 2,
            ReadRefusal::OtherType => 3,
            ReadRefusal::OtherLength => 4,
            ReadRefusal::CutOff => 5,
            ReadRefusal::Checksum { .. } => 6,
            ReadRefusal::Malformed { .. } => 7,
            ReadRefusal::NoRoom(_) => 8,
        }
    }
}

impl WriteRefusal {
    /// The number of the refusal, 8 to 12.
    pub fn number(self) -> u32 {
        match self {
            WriteRefusal::NoRoom(_) => 8,
            WriteRefusal::NoCode(_) => 9,
            WriteRefusal::Empty => 10,
            WriteRefusal::TooLong => 11,
            WriteRefusal::OtherFormat => 12,
        }
    }
}

impl fmt::Display for ReadRefusal {
    fn fmt(&self, to: &mut fmt::Formatter) -> fmt::Result {
        write!(to, "refused {}: ", self.number())?;
        match self {
            ReadRefusal::TooManyBits => write!(to, "the number of header bits to mend is not one of 0 to 2"),
            ReadRefusal::Short => write!(to, "fewer than 4 bytes"),
            ReadRefusal::NoHeader => write!(to, "no valid header within the named number of bits of the one received"),
            ReadRefusal::OtherType => write!(to, "the header's type is none of the five formats, or its spare bit is 1"),
            ReadRefusal::OtherLength => write!(to, "the length is 0 or above the most data bytes at the rate"),
            ReadRefusal::CutOff => write!(to, "fewer bytes than the header's length, with the header and all checksums"),
            ReadRefusal::Checksum { section } => write!(to, "the checksum of section {}, from 0, is not the one that follows it", section),
            ReadRefusal::Malformed { bit, codes } => write!(to, "the data is malformed at bit {}, codes before it: {}", bit, codes),
            ReadRefusal::NoRoom(needed) => write!(to, "the buffer is too short for a text of {} characters", needed),
        }
    }
}

impl fmt::Display for WriteRefusal {
    fn fmt(&self, to: &mut fmt::Formatter) -> fmt::Result {
        write!(to, "refused {}: ", self.number())?;
        match self {
            WriteRefusal::NoRoom(needed) => write!(to, "the buffer is too short for a packet of {} bytes", needed),
            WriteRefusal::NoCode(index) => write!(to, "the character at index {} has no code in the format", index),
            WriteRefusal::Empty => write!(to, "the text is empty"),
            WriteRefusal::TooLong => write!(to, "the data would have more than the most bytes at the rate"),
            WriteRefusal::OtherFormat => write!(to, "the format is not one of 0 to 4"),
        }
    }
}

impl Error for ReadRefusal {}
impl Error for WriteRefusal {}

/// Reads the packet that starts at `packet[0]`, of a message sent at `rate`, into `text`. Bytes behind the packet are not looked at. At most one wrong header
/// bit is mended.
pub fn read<'a>(rate: Rate, packet: &[u8], text: &'a mut [u8]) -> Result<Reading<'a>, ReadRefusal> {
    // Slices of their own lengths, which cannot overlap: all that the library asks for.
    let answer = unsafe { library::rosopyat_read(is_1200(rate), packet.as_ptr(), packet.len(), text.as_mut_ptr(), text.len()) };
    reading_of(answer, text)
}

/// The same, but that at most `mend` wrong header bits are mended: 0, 1 or 2. See `include/rosopyat.h` for which to name: 1, as `read` does, on a live
/// channel; 2 for the replay of a weak recording that is known to hold packets; 0 where no header is to be guessed at.
pub fn read_mending<'a>(mend: u32, rate: Rate, packet: &[u8], text: &'a mut [u8]) -> Result<Reading<'a>, ReadRefusal> {
    let answer = unsafe { library::rosopyat_read_mending(mend, is_1200(rate), packet.as_ptr(), packet.len(), text.as_mut_ptr(), text.len()) };
    reading_of(answer, text)
}

fn is_1200(rate: Rate) -> bool {
    rate == Rate::Bps1200
}

fn reading_of<'a>(answer: library::ReadAnswer, text: &'a [u8]) -> Result<Reading<'a>, ReadRefusal> {
    match answer.refusal {
        0 => Ok(Reading {
            format: Format::try_from(answer.format).unwrap_or_else(|_| unknown("format", answer.format)),
            sync: answer.sync == 1,
            mended: answer.mended,
            mask: answer.mask,
            codes: answer.codes,
            data_length: answer.data_length,
            used: answer.used,
            text: &text[..answer.text_length],
        }),
        refusal => Err(read_refusal_of(refusal, answer.number, answer.codes)),
    }
}

fn read_refusal_of(refusal: u32, number: usize, codes: usize) -> ReadRefusal {
    match refusal {
        1 => ReadRefusal::Short,
        2 => ReadRefusal::NoHeader,
        3 => ReadRefusal::OtherType,
        4 => ReadRefusal::OtherLength,
        5 => ReadRefusal::CutOff,
        6 => ReadRefusal::Checksum { section: number },
        7 => ReadRefusal::Malformed { bit: number, codes },
        8 => ReadRefusal::NoRoom(number),
        17 => ReadRefusal::TooManyBits,
        other => unknown("the reader's refusal", other),
    }
}

/// Writes `text` as one packet, for a message sent at `rate`, to the start of `packet`, and answers that part of it.
pub fn write<'a>(rate: Rate, format: Format, sync: bool, text: &[u8], packet: &'a mut [u8]) -> Result<&'a [u8], WriteRefusal> {
    let answer = unsafe { library::rosopyat_write(is_1200(rate), format.into(), sync, text.as_ptr(), text.len(), packet.as_mut_ptr(), packet.len()) };
    match answer.refusal {
        0 => Ok(&packet[..answer.length]),
        8 => Err(WriteRefusal::NoRoom(answer.number)),
        9 => Err(WriteRefusal::NoCode(answer.number)),
        10 => Err(WriteRefusal::Empty),
        11 => Err(WriteRefusal::TooLong),
        12 => Err(WriteRefusal::OtherFormat),
        other => unknown("the writer's refusal", other),
    }
}

/// Judges the packet that starts at `packet[0]`, of a message sent at `rate`: are its data bytes those that `write` would have sent for the text that it
/// carries, in its format? At most `mend` wrong header bits are mended: 0, 1 or 2. It is refused as `read_mending` would refuse it, given room for its text:
/// `NoRoom` does not occur. A packet of `write`, judged at the rate that it was written for, is as ours; so is every packet in `Open`, `Numeric` or `Shef`.
pub fn judge(mend: u32, rate: Rate, packet: &[u8]) -> Result<Judgement, ReadRefusal> {
    let answer = unsafe { library::rosopyat_judge(mend, is_1200(rate), packet.as_ptr(), packet.len()) };
    match answer.refusal {
        0 => Ok(Judgement { departs_at: if answer.as_ours == 1 { None } else { Some(answer.departs_at) }, more: answer.more }),
        8 => unknown("the judge's refusal", 8),
        refusal => Err(read_refusal_of(refusal, answer.number, answer.codes)),
    }
}

/// The library is proved to answer no other number: it can only be another version of it.
#[cold]
fn unknown(what: &str, number: u32) -> ! {
    panic!("librosopyat_c.a answered {} {}, which this module does not know", what, number)
}

mod library {
    #[repr(C)]
    pub struct ReadAnswer {
        pub refusal: u32,
        pub number: usize,
        pub format: u32,
        pub sync: u32,
        pub mended: u32,
        pub mask: u32,
        pub codes: usize,
        pub data_length: usize,
        pub text_length: usize,
        pub used: usize,
    }

    #[repr(C)]
    pub struct WriteAnswer {
        pub refusal: u32,
        pub number: usize,
        pub length: usize,
    }

    #[repr(C)]
    pub struct JudgeAnswer {
        pub refusal: u32,
        pub number: usize,
        pub codes: usize,
        pub as_ours: u32,
        pub departs_at: usize,
        pub more: usize,
    }

    #[link(name = "rosopyat_c", kind = "static")]
    extern "C" {
        pub fn rosopyat_read(rate_1200: bool, packet: *const u8, packet_length: usize, text: *mut u8, text_room: usize) -> ReadAnswer;
        pub fn rosopyat_read_mending(mend: u32, rate_1200: bool, packet: *const u8, packet_length: usize, text: *mut u8, text_room: usize) -> ReadAnswer;
        pub fn rosopyat_write(
            rate_1200: bool,
            format: u32,
            sync: bool,
            text: *const u8,
            text_length: usize,
            packet: *mut u8,
            packet_room: usize,
        ) -> WriteAnswer;
        pub fn rosopyat_judge(mend: u32, rate_1200: bool, packet: *const u8, packet_length: usize) -> JudgeAnswer;
    }
}
