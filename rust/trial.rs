//! Runs the Rust module: every answer and refusal that it has, and a published packet (its file is the argument). It is built twice, with the module
//! in one file of its own and, under `--cfg as_crate`, with the module as a crate.

#[cfg(not(as_crate))]
mod rosopyat;

use rosopyat::Rate::{Bps1200, Bps300};
use rosopyat::{header_bits, judge, read, read_mending, write, Format, HeaderBit, HeaderPart, Judgement, Rate, ReadRefusal, WriteRefusal};
use rosopyat::{MOST_DATA, MOST_DATA_1200, MOST_PACKET, MOST_PACKET_1200, MOST_TEXT, MOST_TEXT_1200};

const OURS: Judgement = Judgement { departs_at: None, more: 0 };

fn there_and_back(format: Format, sync: bool, text: &[u8]) -> usize {
    comes_back_as(format, sync, text, text)
}

/// Writes a text and reads it back at both rates, where the packet is judged as ours, and answers the packet's length, which is the same at both.
fn comes_back_as(format: Format, sync: bool, text: &[u8], wanted: &[u8]) -> usize {
    let length = comes_back_at(Bps300, format, sync, text, wanted);
    assert_eq!(comes_back_at(Bps1200, format, sync, text, wanted), length);
    length
}

fn comes_back_at(rate: Rate, format: Format, sync: bool, text: &[u8], wanted: &[u8]) -> usize {
    let mut packet = [0; MOST_PACKET_1200];
    let mut back = vec![0; MOST_TEXT_1200];
    let packet = write(rate, format, sync, text, &mut packet).unwrap();
    let reading = read(rate, packet, &mut back).unwrap();
    assert_eq!((reading.format, reading.sync, reading.mended, reading.mask), (format, sync, 0, 0));
    assert_eq!(reading.mended_bits().next(), None);
    let sections = (reading.data_length + 3999) / 4000;
    assert_eq!((reading.data_length + 4 + 2 * sections, reading.used), (packet.len(), packet.len()));
    assert_eq!(reading.text, wanted);
    for mend in 0..=2 {
        assert_eq!(judge(mend, rate, packet), Ok(OURS));
    }
    packet.len()
}

/// Why a packet is not read, which is why it is not judged either, with one header bit mended.
fn refusal(rate: Rate, packet: &[u8], text: &mut [u8]) -> ReadRefusal {
    let refusal = read(rate, packet, text).unwrap_err();
    assert_eq!(judge(1, rate, packet), Err(refusal));
    refusal
}

/// A packet of any data: the header of a text whose data is as long, and what follows the header of an Open packet. One section is the same at both rates.
fn with_data(format: Format, as_long: &[u8], data: &[u8]) -> Vec<u8> {
    let (mut one, mut other) = ([0; MOST_PACKET_1200], [0; MOST_PACKET_1200]);
    let headed = write(Bps1200, format, false, as_long, &mut one).unwrap();
    let open = write(Bps1200, Format::Open, false, data, &mut other).unwrap();
    assert_eq!(headed.len(), open.len());
    [&headed[..4], &open[4..]].concat()
}

/// Data of one to four sections: the lengths around each end, the first bad section, and what only the other rate would take.
fn sections() {
    let text: Vec<u8> = (0..=MOST_DATA_1200).map(|i| (i * 7 + i / 251) as u8).collect();
    let mut buffer = [0; MOST_PACKET_1200];
    let mut back = [0; MOST_DATA_1200];
    for (length, packet_length) in [(3999, 4005), (4000, 4006), (4001, 4009), (8000, 8008), (8001, 8011), (12_001, 12_013), (16_000, 16_012)] {
        assert_eq!(comes_back_at(Bps1200, Format::Open, true, &text[..length], &text[..length]), packet_length);
        assert_eq!(write(Bps1200, Format::Open, true, &text[..length], &mut buffer[..packet_length - 1]), Err(WriteRefusal::NoRoom(packet_length)));
        let packet = write(Bps1200, Format::Open, true, &text[..length], &mut buffer).unwrap().to_vec();
        assert_eq!(refusal(Bps1200, &packet[..packet_length - 1], &mut back), ReadRefusal::CutOff);
        let mut damaged = packet.clone();
        for section in (0..(length + 3999) / 4000).rev() {
            let first = 4 + 4002 * section;
            for place in [first, (first + 4001).min(packet_length - 1)] {
                let before = damaged[place];
                damaged[place] ^= 0x10;
                assert_eq!(refusal(Bps1200, &damaged, &mut back), ReadRefusal::Checksum { section }, "{} bytes, changed at {}", length, place);
                damaged[place] = before;
            }
            damaged[first] ^= 0x10; // and those before it: the first counts
        }
        if length > MOST_DATA {
            assert_eq!(refusal(Bps300, &packet, &mut back), ReadRefusal::OtherLength);
            assert_eq!(write(Bps300, Format::Open, true, &text[..length], &mut buffer), Err(WriteRefusal::TooLong));
        }
    }
    assert_eq!(write(Bps1200, Format::Open, false, &text, &mut buffer), Err(WriteRefusal::TooLong));
    let longest = vec![b'/'; MOST_TEXT_1200];
    assert_eq!(comes_back_at(Bps1200, Format::PseudoBinary, true, &longest, &longest), MOST_PACKET_1200);
    // Six ones of SHEF, behind 6,400 zeros that fill the first section.
    let mut zeros = vec![0; 4000];
    zeros.push(0xff);
    let malformed = with_data(Format::Shef, &[b'0'; 6401], &zeros);
    assert_eq!(malformed.len(), 4009);
    assert_eq!(refusal(Bps1200, &malformed, &mut back), ReadRefusal::Malformed { bit: 32_000, codes: 6400 });
}

fn read_refusals() {
    let mut buffer = [0; 64];
    let mut text = [0; 8];
    assert_eq!(refusal(Bps300, &[], &mut text), ReadRefusal::Short);
    assert_eq!(refusal(Bps300, &[0x40, 0x00, 0x04, 0xda], &mut text), ReadRefusal::NoHeader);
    assert_eq!(refusal(Bps300, &[0; 4], &mut text), ReadRefusal::OtherType);
    let packet = write(Bps300, Format::FullAscii, true, b"A\r\nB", &mut buffer).unwrap().to_vec();
    assert_eq!(refusal(Bps300, &packet[..packet.len() - 1], &mut text), ReadRefusal::CutOff);
    assert_eq!(read(Bps300, &packet, &mut text[..3]), Err(ReadRefusal::NoRoom(4)));
    assert_eq!(read(Bps300, &packet, &mut []), Err(ReadRefusal::NoRoom(4)));
    let mut damaged = packet.clone();
    damaged[4] ^= 1;
    assert_eq!(refusal(Bps300, &damaged, &mut text), ReadRefusal::Checksum { section: 0 });
    // An Open packet of one byte FF, its length turned to 0 (and the check with it), and its type to Full ASCII.
    let open = write(Bps300, Format::Open, false, b"\xff", &mut buffer).unwrap().to_vec();
    assert_eq!(open[..4], [0x40, 0x00, 0x04, 0xdd]);
    let no_data = [&[0x40, 0x00, 0x03, 0xb4], &open[4..]].concat();
    assert_eq!(refusal(Bps300, &no_data, &mut text), ReadRefusal::OtherLength);
    let malformed = [&[0xd0, 0x00, 0x04, 0x30], &open[4..]].concat();
    assert_eq!(refusal(Bps300, &malformed, &mut text), ReadRefusal::Malformed { bit: 0, codes: 0 });
    assert_eq!(text, [0; 8]);

    let mut mended = open.clone();
    mended[0] ^= 0x80;
    mended.push(7);
    let reading = read(Bps300, &mended, &mut text).unwrap();
    assert_eq!((reading.mended, reading.mask, reading.used, reading.text), (1, 0x8000_0000, 7, &b"\xff"[..]));
}

/// How many codes data has, up to the most that it can have, and how many come before a bad place.
fn codes() {
    let mut text = [0; 16];
    for (format, as_long, data, codes) in [
        (Format::Open, &b"x"[..], &b"\0"[..], 0),
        (Format::PseudoBinary, b"AB", b"\x81\x04\x2f", 3),
        (Format::PseudoBinary, b"/", b"\x7f", 1),
        (Format::PseudoBinary, b"AB", b"\0\0\0", 4),
        (Format::Numeric, b"1", b"\x1a", 2),
        (Format::Numeric, b"1:2", b"\x1e\xe2", 4),
        (Format::Shef, b"A\n", b"\x83\xaf", 2),
        (Format::Shef, b"01234567", b"\0\0\0\0\0", 8),
        (Format::FullAscii, b"A\r\n", b"\x83\xff", 2),
        (Format::FullAscii, b"   ", b"\0\0\0", 4),
    ] {
        assert_eq!(read(Bps300, &with_data(format, as_long, data), &mut text).unwrap().codes, codes, "{:?} {:x?}", format, data);
    }
    for (format, as_long, data, bit, codes) in [
        (Format::PseudoBinary, &b"/"[..], &b"\xff"[..], 8, 1),
        (Format::PseudoBinary, b"A", b"\x82\x07", 14, 2),
        (Format::PseudoBinary, b"AB", b"\x82\x04\x2f", 20, 3),
        (Format::Shef, b"A", b"\xff", 0, 0),
        (Format::Shef, b"AB", b"\x07\xff", 5, 1),
        (Format::FullAscii, b"A", b"\xff", 0, 0),
    ] {
        let refused = refusal(Bps300, &with_data(format, as_long, data), &mut text);
        assert_eq!(refused, ReadRefusal::Malformed { bit, codes }, "{:?} {:x?}", format, data);
    }
}

/// As it was sent, with one and with two header bits flipped (P5 of the table of edges): for each number, how many bits are mended and which, or why not; and
/// whether it is judged.
fn named_numbers() {
    let mut buffer = [0; 64];
    let sent = write(Bps300, Format::Open, false, b"x", &mut buffer).unwrap().to_vec();
    let mended = |named: Option<u32>, flip: u8| {
        let mut packet = sent.clone();
        packet[0] ^= flip;
        let mut text = [0; 1];
        let reading = match named {
            Some(mend) => read_mending(mend, Bps300, &packet, &mut text),
            None => read(Bps300, &packet, &mut text),
        };
        assert_eq!(judge(named.unwrap_or(1), Bps300, &packet), reading.map(|_| OURS));
        reading.map(|reading| {
            assert_eq!((reading.format, reading.sync, reading.data_length, reading.used, reading.text), (Format::Open, false, 1, 7, &b"x"[..]));
            (reading.mended, reading.mask)
        })
    };
    let (clean, one, two) = (Ok((0, 0)), Ok((1, 0x8000_0000)), Ok((2, 0x8100_0000)));
    let refused = Err(ReadRefusal::NoHeader);
    for (named, outcomes) in [
        (Some(0), [clean, refused, refused]),
        (Some(1), [clean, one, refused]),
        (Some(2), [clean, one, two]),
        (Some(3), [Err(ReadRefusal::TooManyBits); 3]),
        (Some(u32::MAX), [Err(ReadRefusal::TooManyBits); 3]),
        (None, [clean, one, refused]),
    ] {
        assert_eq!([0x00, 0x80, 0x81].map(|flip| mended(named, flip)), outcomes, "named {:?}", named);
    }
    let mut text = [5; 8];
    for number in [3, 256, 65_538, u32::MAX] {
        assert_eq!(read_mending(number, Bps300, &[], &mut text), Err(ReadRefusal::TooManyBits));
        assert_eq!(read_mending(number, Bps300, &sent, &mut text), Err(ReadRefusal::TooManyBits));
        assert_eq!(judge(number, Bps300, &[]), Err(ReadRefusal::TooManyBits));
        assert_eq!(judge(number, Bps300, &sent), Err(ReadRefusal::TooManyBits));
    }
    assert_eq!(read_mending(2, Bps300, &[], &mut text), Err(ReadRefusal::Short));
    assert_eq!(text, [5; 8]);
}

/// Packets of other makers: where each departs from ours, and how many data bytes more it has; and with header bits flipped.
fn judgements() {
    for (format, as_long, data, carried, departs_at, more) in [
        // runs that our writer does not cut: slashes, spaces and values
        (Format::PseudoBinary, &b"A"[..], &b"\x41\x0f"[..], &b"//"[..], Some(5), 1),
        (Format::PseudoBinary, b"A", b"\x00\x0f", b"  ", Some(5), 1),
        (Format::PseudoBinary, b"ABC", b"\x80\x06\x00\x2f", b"AB", Some(7), 1),
        // 17 slashes are 16 and 1 with us, not 1 and 16, nor 8 and 9; here they end in the same byte
        (Format::PseudoBinary, b"A", b"\x7d\x0f", &[b'/'; 17], None, 0),
        (Format::PseudoBinary, b"A", b"\x41\xff", &[b'/'; 17], Some(2), 0),
        (Format::PseudoBinary, b"A", b"\x5d\x8f", &[b'/'; 17], Some(2), 0),
        // the last run alone is cut: into the next byte, and into what is fill with us
        (Format::PseudoBinary, b"ABC", b"\x80\x05\x04\x3f", b"A//", Some(19), 1),
        (Format::PseudoBinary, b"AB", b"\x40\x04\x10", b"/ //", Some(17), 0),
        // CR and LF in a code each
        (Format::FullAscii, b"AB\r\n", b"\xfe\xff\xbf", b"\r\n", Some(7), 1),
        (Format::FullAscii, b"ABC\r\n", b"\x83\xfd\xff\x7f", b"A\r\n", Some(14), 2),
        (Format::FullAscii, b"AB\r\n", b"\xff\x7f\x7f", b"\n\r", None, 0),
    ] {
        let packet = with_data(format, as_long, data);
        let mut text = [0; 17];
        assert_eq!(read(Bps300, &packet, &mut text).unwrap().text, carried, "{:x?}", data);
        for (mend, rate) in [(0, Bps300), (1, Bps300), (2, Bps300), (0, Bps1200), (1, Bps1200), (2, Bps1200)] {
            let judgement = judge(mend, rate, &packet).unwrap();
            assert_eq!((judgement.departs_at, judgement.more), (departs_at, more), "{:x?}", data);
            assert_eq!(judgement.as_ours(), departs_at.is_none());
        }
    }
    let slashes = [[0x41, 0x04, 0x10].repeat(5333), vec![0x43]].concat();
    let line_end = [&[0; 3999][..], b"\x03\xfb\xfe"].concat();
    for (format, as_long, data, departs_at, more) in [
        // a code for each of 21,333 slashes, which we send in 1,001 bytes
        (Format::PseudoBinary, vec![b'/'; MOST_TEXT_1200], slashes, 2, 14_999),
        // CR and LF in a code each, behind 5,333 spaces: that of CR stands over the end of the first section
        (Format::FullAscii, vec![b' '; 5336], line_end, 32_005, 1),
    ] {
        let packet = with_data(format, &as_long, &data);
        assert_eq!(judge(0, Bps1200, &packet), Ok(Judgement { departs_at: Some(departs_at), more }));
        assert_eq!(judge(0, Bps300, &packet), Err(ReadRefusal::OtherLength));
    }

    let sent = [with_data(Format::PseudoBinary, b"A", b"\x41\x0f"), vec![7]].concat();
    let departs = Ok(Judgement { departs_at: Some(5), more: 1 });
    let no_header = Err(ReadRefusal::NoHeader);
    for (mend, outcomes) in [
        (0, [departs, no_header, no_header]),
        (1, [departs, departs, no_header]),
        (2, [departs, departs, departs]),
        (3, [Err(ReadRefusal::TooManyBits); 3]),
        (u32::MAX, [Err(ReadRefusal::TooManyBits); 3]),
    ] {
        let judged = [0x00, 0x80, 0x81].map(|flip| {
            let mut packet = sent.clone();
            packet[0] ^= flip;
            judge(mend, Bps300, &packet)
        });
        assert_eq!(judged, outcomes, "named {}", mend);
    }
    // What cannot be read is not judged, even where it departs before.
    let mut text = [0; 2];
    assert_eq!(refusal(Bps300, &sent[..7], &mut text), ReadRefusal::CutOff);
    let malformed = with_data(Format::PseudoBinary, b"AB", b"\x41\x08\x0f");
    assert_eq!(refusal(Bps300, &malformed, &mut text), ReadRefusal::Malformed { bit: 20, codes: 3 });
}

/// The header as it was sent, and each bit of it and each two flipped: the mask has just these bits, and they are listed with their parts.
fn mended_bits() {
    let parts = [
        (HeaderPart::Parity, 31..=31, "parity"),
        (HeaderPart::Type, 29..=30, "type"),
        (HeaderPart::ExtendedType, 26..=28, "extended type"),
        (HeaderPart::Sync, 25..=25, "sync"),
        (HeaderPart::Spare, 24..=24, "spare"),
        (HeaderPart::Length, 10..=23, "length"),
        (HeaderPart::Check, 0..=9, "check"),
    ];
    let bit = |position: u32| {
        let part = parts.iter().find(|(_, positions, _)| positions.contains(&position)).unwrap().0;
        HeaderBit { position, part }
    };
    let mut buffer = [0; 64];
    let sent = write(Bps300, Format::Shef, true, b"A", &mut buffer).unwrap().to_vec();
    // The packet with these bits flipped; their positions stand highest first.
    let comes_of = |positions: &[u32]| {
        let mut packet = sent.clone();
        for position in positions {
            packet[3 - *position as usize / 8] ^= 1 << (position % 8);
        }
        let mut text = [0; 1];
        let reading = read_mending(2, Bps300, &packet, &mut text).unwrap();
        assert_eq!((reading.format, reading.sync, reading.text), (Format::Shef, true, &b"A"[..]));
        assert_eq!(reading.mask, positions.iter().map(|position| 1 << position).sum::<u32>());
        assert_eq!((reading.mended as usize, reading.mask.count_ones()), (positions.len(), reading.mended));
        let wanted: Vec<HeaderBit> = positions.iter().map(|&position| bit(position)).collect();
        assert_eq!(reading.mended_bits().collect::<Vec<_>>(), wanted);
        let mut again = [0; 1];
        let usual = if positions.len() < 2 { Ok(reading) } else { Err(ReadRefusal::NoHeader) };
        assert_eq!(read(Bps300, &packet, &mut again), usual);
    };
    comes_of(&[]);
    for high in 0..32 {
        comes_of(&[high]);
        for low in 0..high {
            comes_of(&[high, low]);
        }
    }
    assert!(header_bits(u32::MAX).eq((0..32).rev().map(bit)));

    let mut text = [0; 1];
    let open = write(Bps300, Format::Open, false, b"x", &mut buffer).unwrap().to_vec();
    let p5 = [&[0xc1, 0x00, 0x04, 0xdd], &open[4..]].concat();
    let reading = read_mending(2, Bps300, &p5, &mut text).unwrap();
    let listed: Vec<HeaderBit> = reading.mended_bits().collect();
    assert_eq!((reading.mask, reading.mask.count_ones(), reading.mended), (0x8100_0000, 2, 2));
    assert_eq!(listed, [HeaderBit { position: 31, part: HeaderPart::Parity }, HeaderBit { position: 24, part: HeaderPart::Spare }]);
    for (part, _, word) in &parts {
        assert_eq!(part.to_string(), *word);
    }
}

fn write_refusals() {
    let mut packet = [0; 64];
    assert_eq!(write(Bps300, Format::Open, false, b"", &mut packet), Err(WriteRefusal::Empty));
    assert_eq!(write(Bps300, Format::PseudoBinary, false, b"@A>", &mut packet), Err(WriteRefusal::NoCode(2)));
    assert_eq!(write(Bps300, Format::Numeric, false, b"12+\r\n", &mut packet), Err(WriteRefusal::NoCode(3)));
    assert_eq!(write(Bps300, Format::Shef, false, b"Ab", &mut packet), Err(WriteRefusal::NoCode(1)));
    assert_eq!(write(Bps300, Format::FullAscii, false, b"\x7f", &mut packet), Err(WriteRefusal::NoCode(0)));
    assert_eq!(write(Bps300, Format::Open, false, &[0; MOST_DATA + 1], &mut packet), Err(WriteRefusal::TooLong));
    assert_eq!(write(Bps300, Format::Open, false, b"abc", &mut packet[..8]), Err(WriteRefusal::NoRoom(9)));
    assert_eq!(packet, [0; 64]);
}

/// Every number is a format's or refused, whatever its low bits say.
fn formats() {
    let mut packet = [0; 64];
    for number in (0..16).chain([256, 257, 260, 65_540, u32::MAX]) {
        let written = Format::try_from(number).and_then(|format| write(Bps300, format, false, b"/", &mut packet).map(<[u8]>::to_vec));
        match number {
            0..=4 => assert_eq!(written.map(|packet| u32::from(packet[0] >> 2 & 7)), Ok(number)),
            _ => assert_eq!(written, Err(WriteRefusal::OtherFormat)),
        }
    }
}

fn numbers_and_words() {
    use ReadRefusal::*;
    let (checksum, malformed) = (Checksum { section: 3 }, Malformed { bit: 70, codes: 11 });
    let read = [TooManyBits, Short, NoHeader, OtherType, OtherLength, CutOff, checksum, malformed, NoRoom(80)];
    assert_eq!(read.map(ReadRefusal::number), [17, 1, 2, 3, 4, 5, 6, 7, 8]);
    let write = [WriteRefusal::NoRoom(80), WriteRefusal::NoCode(90), WriteRefusal::Empty, WriteRefusal::TooLong, WriteRefusal::OtherFormat];
    assert_eq!(write.map(WriteRefusal::number), [8, 9, 10, 11, 12]);
    for refusal in read {
        assert!(refusal.to_string().starts_with(&format!("refused {}: ", refusal.number())));
    }
    for refusal in write {
        assert!(refusal.to_string().starts_with(&format!("refused {}: ", refusal.number())));
    }
    assert_eq!(checksum.to_string(), "refused 6: the checksum of section 3, from 0, is not the one that follows it");
    assert!(malformed.to_string().ends_with("at bit 70, codes before it: 11") && NoRoom(80).to_string().ends_with("80 characters"));
    assert!(write[0].to_string().ends_with("80 bytes") && write[1].to_string().contains("index 90"));
}

/// The refusals go where errors go.
fn first_byte(packet: &[u8]) -> Result<u8, Box<dyn std::error::Error>> {
    let mut text = [0; 8];
    Ok(read(Bps300, packet, &mut text)?.text[0])
}

fn main() {
    let every: Vec<u8> = (0..=255).collect();
    assert_eq!(there_and_back(Format::Open, true, &every), 262);
    assert_eq!(there_and_back(Format::PseudoBinary, false, b"@A~?//// ZZ"), 14);
    assert_eq!(comes_back_as(Format::PseudoBinary, false, b"?\x7f//// \x7f?", b"??//// ??"), 13);
    assert_eq!(there_and_back(Format::PseudoBinary, true, &[b'/'; MOST_TEXT]), MOST_PACKET);
    assert_eq!(there_and_back(Format::Numeric, true, b"13:30:00 -4.8,E\r\n"), 16);
    assert_eq!(comes_back_as(Format::Numeric, false, b"1\n2\r", b"1\r\n2\r\n"), 9);
    assert_eq!(comes_back_as(Format::Numeric, false, b"123", b"123 "), 8);
    assert_eq!(there_and_back(Format::Shef, true, b":HG 4 #5 190.039;\r\n"), 18);
    assert_eq!(comes_back_as(Format::Shef, false, b"A\rB\n", b"A\r\nB\r\n"), 9);
    assert_eq!(there_and_back(Format::FullAscii, false, b"Stage 1.23 m\r\n\t~"), 19);
    assert_eq!(MOST_DATA + 6, MOST_PACKET);
    sections();
    read_refusals();
    codes();
    named_numbers();
    judgements();
    mended_bits();
    write_refusals();
    formats();
    numbers_and_words();
    assert_eq!(first_byte(&[0x40]).unwrap_err().to_string(), "refused 1: fewer than 4 bytes");

    let packet = std::fs::read(std::env::args().nth(1).expect("a packet's file")).unwrap();
    let mut text = [0; 4096];
    let reading = read(Bps300, &packet, &mut text).unwrap();
    assert_eq!((reading.format, reading.mask, reading.codes), (Format::FullAscii, 0, 306));
    assert_eq!((reading.data_length, reading.text.len()), (259, 306));
    let mut again = [0; 4096];
    assert_eq!(read_mending(2, Bps300, &packet, &mut again), Ok(reading));
    assert_eq!(judge(0, Bps300, &packet), Ok(OURS));
    println!("Rust, the module {}: all as it should be", if cfg!(as_crate) { "as a crate" } else { "in one file" });
}
