//! Known answers: the examples of 01, what the makers' papers print, and frames built by hand from their byte tables.
//! Each is tried on the reference and on the library.

use crate::harness::{Hex, Report, Section};
use crate::interface::*;
use crate::library::Library;
use crate::reference::{counted, items, noise, Event, Item, Reference, HEAD, PRODUCT_TYPE, RECORD, STORE};

const LIBRARY: Library = Library { null_for_empty: false };

pub fn both() -> [(&'static str, &'static dyn Interface); 2] {
    [("reference", &Reference), ("library", &LIBRARY)]
}

/// Events from text: bytes in hex, M for a mark, 41*255 or 7D5E*260 for one or more bytes many times.
fn events(text: &str) -> Vec<Event> {
    let mut all = Vec::new();
    for part in text.split_whitespace() {
        if part == "M" {
            all.push(Event::Mark);
            continue;
        }
        let (digits, times) = part.split_once('*').unwrap_or((part, "1"));
        let byte = |at| u8::from_str_radix(&digits[at..at + 2], 16).expect("a byte in hex");
        let bytes: Vec<Event> = (0..digits.len()).step_by(2).map(|at| Event::Byte(byte(at))).collect();
        all.extend(bytes.repeat(times.parse().expect("a count")));
    }
    all
}

pub fn hex(text: &str) -> Vec<u8> {
    let byte = |event| match event {
        Event::Byte(byte) => byte,
        Event::Mark => panic!("no mark in bytes: {text}"),
    };
    events(text).into_iter().map(byte).collect()
}

/// What a receiver made of a stream: its items, and what it answers when it is then asked for its noise.
type Received = (Vec<Item>, Noise);

/// Items as text: F for a frame, a number for a refusal, 4@0 for one with a place; then the count of noise, but for 0.
fn told((items, noise): &Received) -> String {
    let counted = match noise {
        Noise { refusal: 0, count: 0 } => None,
        Noise { refusal: 0, count } => Some(format!("noise {count}")),
        Noise { refusal, count } => Some(format!("noise refused {refusal} with a count {count}")),
    };
    let names: Vec<String> = items
        .iter()
        .map(|item| match item {
            Item::Frame(_) => "F".to_string(),
            Item::Refused(number @ (3 | 4), place) => format!("{number}@{place}"),
            Item::Refused(number, 0) => number.to_string(),
            Item::Refused(number, place) => format!("{number} with a place {place}"),
        })
        .chain(counted)
        .collect();
    names.join(" ")
}

/// What a receiver that has counted so much noise gives when it is fed pieces of at most a size, each rest again. A
/// mark goes with the piece behind it or, where it is to be alone, with an empty one.
fn received(on: &dyn Interface, kind: u8, count: u32, events: &[Event], widest: usize, alone: bool) -> Received {
    let (mut record, mut frame, mut items) = ([0; RECORD], [0; STORE], Vec::new());
    assert_eq!(on.receiver_fresh(kind, &mut record), 0);
    record[4..HEAD].copy_from_slice(&count.to_be_bytes());
    let mut rest = events;
    while let Some(event) = rest.first() {
        let silence = *event == Event::Mark;
        rest = &rest[usize::from(silence)..];
        let bytes = rest.iter().map_while(|event| match event {
            Event::Byte(byte) => Some(*byte),
            Event::Mark => None,
        });
        let piece: Vec<u8> = bytes.take(if silence && alone { 0 } else { widest }).collect();
        let fed = on.feed(&mut record, u8::from(silence), &piece, &mut frame);
        if fed.frame_length > 0 {
            items.push(Item::Frame(frame[..fed.frame_length].to_vec()));
        } else if fed.refusal > 0 {
            items.push(Item::Refused(fed.refusal, fed.place));
        }
        if fed.taken == 0 && !silence {
            // Nothing taken of a piece that is not empty: no receiver does that, and this loop must end.
            break;
        }
        rest = &rest[fed.taken..];
    }
    (items, on.receiver_noise(&record))
}

/// The body of a wire frame, by the receiver.
pub fn body_of(on: &dyn Interface, kind: u8, wire: &str) -> Vec<u8> {
    match &received(on, kind, 0, &events(wire), 4096, false).0[..] {
        [Item::Frame(body)] => body.clone(),
        _ => Vec::new(),
    }
}

fn written(answer: Written, out: &[u8]) -> Result<Vec<u8>, u8> {
    match answer.refusal {
        0 => Ok(out[..answer.length].to_vec()),
        refusal => Err(refusal),
    }
}

fn write_request(on: &dyn Interface, address: u8, request: u8, value: u32) -> Result<Vec<u8>, u8> {
    let mut out = [0; 32];
    let answer = on.write_request(address, request, value, &mut out);
    written(answer, &out)
}

type Asked = (u8, u8, u32);

fn write_reply(on: &dyn Interface, asked: Asked, reply: Reply, text: &[u8]) -> Result<Vec<u8>, u8> {
    let mut out = [0; 600];
    let (address, request, value) = asked;
    let answer = on.write_reply(address, request, value, reply.reply, reply.value, text, reply.bit7, &mut out);
    written(answer, &out)
}

// ---- Requests

const fn typed(address: u8, request: u8, value: u32) -> Request {
    Request { refusal: 0, address, request, value }
}

const fn not_typed(refusal: u8) -> Request {
    Request { refusal, address: 0, request: 0, value: 0 }
}

#[rustfmt::skip]
const REQUESTS: &[(&str, Request)] = &[
    // 01's examples 3 to 6
    ("7E 00 00 01 01 FD 7E", typed(0, 0, 0)),
    ("7E 3C 45 00 7D 5E 7E", typed(0x3C, 13, 0)),
    ("7E 00 90 01 7D 31 5D 7E", typed(0, 17, 0x11)),
    ("7E 02 46 04 00 00 00 01 B2 7E", typed(2, 15, 1)),
    // 002's worked examples: a command outside the table, and its data carried by two others
    ("7E 02 43 04 64 A0 22 FC 94 7E", not_typed(11)),
    ("7E 02 46 04 A7 B4 7D 5E 24 B6 7E", typed(2, 15, 2_813_623_844)),
    ("7E 00 45 04 A7 B4 7D 5E 24 B9 7E", typed(0, 14, 2_813_623_844)),
    // 002's stuffing rows as data, as address and as checksum
    ("7E 00 45 04 7D 5E 7D 5D 7D 31 7D 33 97 7E", typed(0, 14, 0x7E7D_1113)),
    ("7E 7D 5E 45 00 3C 7E", typed(0x7E, 13, 0)),
    ("7E 7D 5D 45 00 3D 7E", typed(0x7D, 13, 0)),
    ("7E 7D 31 45 00 A9 7E", typed(0x11, 13, 0)),
    ("7E 7D 33 45 00 A7 7E", typed(0x13, 13, 0)),
    ("7E 3D 45 00 7D 5D 7E", typed(0x3D, 13, 0)),
    ("7E A9 45 00 7D 31 7E", typed(0xA9, 13, 0)),
    ("7E A7 45 00 7D 33 7E", typed(0xA7, 13, 0)),
    // Every form of 002; those outside 01's table are 11
    ("7E 00 00 05 01 40 20 00 00 99 7E", typed(0, 1, 0x4020_0000)),
    ("7E 00 08 01 01 F5 7E", typed(0, 2, 0)),
    ("7E 00 08 02 7D 31 64 80 7E", not_typed(11)),
    ("7E 00 03 05 01 40 20 00 00 96 7E", not_typed(11)),
    ("7E 00 22 01 00 DC 7E", typed(0, 3, 0)),
    ("7E 00 22 05 00 3F 80 00 00 19 7E", typed(0, 4, 0x3F80_0000)),
    ("7E 00 22 01 03 D9 7E", typed(0, 5, 0)),
    ("7E 00 22 05 03 3F 00 00 00 96 7E", typed(0, 6, 0x3F00_0000)),
    ("7E 00 30 01 00 CE 7E", typed(0, 7, 0)),
    ("7E 00 30 01 02 CC 7E", typed(0, 8, 0)),
    ("7E 00 30 01 10 BE 7E", typed(0, 9, 0)),
    ("7E 00 40 01 00 BE 7E", typed(0, 10, 0)),
    ("7E 00 40 05 10 00 00 00 7D 31 99 7E", typed(0, 11, 17)),
    ("7E 00 40 05 12 00 00 00 01 A7 7E", not_typed(11)),
    ("7E 00 40 05 7D 33 00 00 00 01 A6 7E", not_typed(11)),
    ("7E 00 40 05 14 00 00 00 01 A5 7E", not_typed(11)),
    ("7E 00 44 01 12 A8 7E", not_typed(11)),
    ("7E 00 44 01 7D 33 A7 7E", not_typed(11)),
    ("7E 00 44 01 14 A6 7E", typed(0, 12, 0)),
    ("7E 00 45 00 BA 7E", typed(0, 13, 0)),
    ("7E 00 45 04 00 00 00 01 B5 7E", typed(0, 14, 1)),
    ("7E 00 46 04 00 00 00 01 B4 7E", typed(0, 15, 1)),
    ("7E 00 90 00 6F 7E", typed(0, 16, 0)),
    ("7E 00 90 01 FE 70 7E", typed(0, 17, 254)),
    ("7E 00 91 00 6E 7E", typed(0, 18, 0)),
    ("7E 00 91 04 00 00 25 80 C5 7E", typed(0, 19, 9600)),
    ("7E 00 91 04 00 00 4B 00 1F 7E", typed(0, 19, 19200)),
    ("7E 00 91 04 00 00 96 00 D4 7E", typed(0, 19, 38400)),
    ("7E 00 91 04 00 00 E1 00 89 7E", typed(0, 19, 57600)),
    ("7E 00 91 04 00 01 C2 00 A7 7E", typed(0, 19, 115200)),
    ("7E 00 D0 01 00 2E 7E", typed(0, 20, 0)),
    ("7E 00 D0 01 01 2D 7E", not_typed(11)),
    ("7E 00 D0 01 02 2C 7E", not_typed(11)),
    ("7E 00 D0 01 03 2B 7E", not_typed(11)),
    ("7E 00 D1 00 2E 7E", not_typed(11)),
    ("7E 00 D3 00 2C 7E", not_typed(11)),
    // Floats of a set setpoint: the three codings of a reply are refused in a request
    ("7E 00 00 05 01 FF FF FF FF FD 7E", not_typed(13)),
    ("7E 00 00 05 01 7F 80 00 00 FA 7E", not_typed(13)),
    ("7E 00 00 05 01 FF 80 00 00 7A 7E", not_typed(13)),
    ("7E 00 00 05 01 7F C0 00 00 BA 7E", not_typed(13)),
    ("7E 00 00 05 01 7F FF FF FF 7D 5D 7E", not_typed(13)),
    ("7E 00 00 05 01 80 00 00 00 79 7E", typed(0, 1, 0x8000_0000)),
    ("7E 00 00 05 01 7F 7F FF FF FD 7E", typed(0, 1, 0x7F7F_FFFF)),
    // Subcommand missing or unknown before any length; then lengths and ranges; then 10
    ("7E 00 00 00 FF 7E", not_typed(11)),
    ("7E 00 D0 00 2F 7E", not_typed(11)),
    ("7E 00 00 01 02 FC 7E", not_typed(11)),
    ("7E 00 00 0A 02 00 00 00 00 00 00 00 00 00 F3 7E", not_typed(11)),
    ("7E 00 00 02 01 00 FC 7E", not_typed(12)),
    ("7E 00 08 05 01 3F 80 00 00 32 7E", not_typed(12)),
    ("7E 00 40 01 10 AE 7E", not_typed(12)),
    ("7E 00 45 01 01 B8 7E", not_typed(12)),
    ("7E 00 46 00 B9 7E", not_typed(12)),
    ("7E FF 90 02 01 01 6C 7E", not_typed(12)),
    ("7E 00 90 01 FF 6F 7E", not_typed(12)),
    ("7E FF 90 01 FF 70 7E", not_typed(12)),
    ("7E 00 91 04 00 00 38 40 F2 7E", not_typed(12)),
    ("7E FF 90 01 05 6A 7E", not_typed(10)),
    ("7E FF 00 05 01 FF FF FF FF FE 7E", not_typed(13)),
    ("7E FF 90 00 70 7E", typed(255, 16, 0)),
    ("7E FF 00 01 01 FE 7E", typed(255, 0, 0)),
    // The longest request on the wire, and two that are good frames of a reply too
    ("7E 7D 5D 22 05 00 7D 31 7D 31 7D 33 7D 33 7D 33 7E", typed(0x7D, 4, 0x1111_1313)),
    ("7E 00 90 01 00 6E 7E", typed(0, 17, 0)),
    ("7E 00 45 04 03 00 00 00 B3 7E", typed(0, 14, 0x0300_0000)),
    ("7E 00 46 04 03 00 00 00 B2 7E", typed(0, 15, 0x0300_0000)),
];

fn requests(section: &mut Section) {
    for (wire, expected) in REQUESTS {
        for (name, on) in both() {
            let body = body_of(on, 0, wire);
            section.expect(&format!("{name} reads {wire}"), *expected, on.read_request(&body));
            if expected.refusal == 0 {
                let again = write_request(on, expected.address, expected.request, expected.value);
                section.expect(&format!("{name} writes {wire}"), Ok(hex(wire)), again);
            }
        }
    }
}

// ---- Replies

const fn reply(reply: u8, value: u32) -> Reply {
    Reply { refusal: 0, code: 0, bit7: 0, reply, value, text_start: 0, text_length: 0 }
}

const fn flagged(mut reply: Reply) -> Reply {
    reply.bit7 = 1;
    reply
}

const fn no_reply(refusal: u8) -> Reply {
    Reply { refusal, code: 0, bit7: 0, reply: 0, value: 0, text_start: 0, text_length: 0 }
}

const fn device_error(code: u8) -> Reply {
    Reply { refusal: 15, code, bit7: 0, reply: 0, value: 0, text_start: 0, text_length: 0 }
}

const SETPOINT: Asked = (0, 0, 0);
const MEASURED: Asked = (0, 2, 0);
const VALIDITY: Asked = (0, 11, 0);
const NO: &str = "7E 00 40 00 01 00 BE 7E";
const YES: &str = "7E 00 40 00 01 01 BD 7E";
const VOLATILE: Asked = (0, 15, 1);
const BAUD: Asked = (0, 18, 0);

#[rustfmt::skip]
const REPLIES: &[(Asked, &str, Reply)] = &[
    // 01's examples 7 and 8
    (MEASURED, "7E 00 08 00 04 3F 80 00 00 34 7E", reply(2, 0x3F80_0000)),
    (VOLATILE, "7E 00 46 20 00 99 7E", device_error(32)),
    // Every form of 01's table
    (SETPOINT, "7E 00 00 00 04 40 20 00 00 9B 7E", reply(1, 0x4020_0000)),
    ((0, 1, 0x4020_0000), "7E 00 00 00 00 FF 7E", reply(0, 0)),
    ((0, 3, 0), "7E 00 22 00 04 3F 80 00 00 1A 7E", reply(3, 0x3F80_0000)),
    ((0, 4, 0x3F80_0000), "7E 00 22 00 00 DD 7E", reply(0, 0)),
    ((0, 5, 0), "7E 00 22 00 04 3F 00 00 00 9A 7E", reply(4, 0x3F00_0000)),
    ((0, 6, 0x3F00_0000), "7E 00 22 00 00 DD 7E", reply(0, 0)),
    ((0, 7, 0), "7E 00 30 00 02 7D 31 7D 33 A9 7E", reply(5, 4371)),
    ((0, 8, 0), "7E 00 30 00 02 7D 5D 7D 5E D2 7E", reply(6, 32126)),
    ((0, 9, 0), "7E 00 30 00 04 C1 A0 00 00 6A 7E", reply(7, 0xC1A0_0000)),
    ((0, 10, 0), "7E 00 40 00 04 00 00 00 7D 33 A8 7E", reply(8, 19)),
    ((0, 11, 17), "7E 00 40 00 01 01 BD 7E", reply(9, 1)),
    ((0, 12, 0), "7E 00 44 00 04 41 A0 00 00 D6 7E", reply(10, 0x41A0_0000)),
    ((0, 13, 0), "7E 00 45 00 04 00 00 00 01 B5 7E", reply(11, 1)),
    ((0, 14, 1), "7E 00 45 00 00 BA 7E", reply(0, 0)),
    (VOLATILE, "7E 00 46 00 00 B9 7E", reply(0, 0)),
    ((0, 16, 0), "7E 00 90 00 01 00 6E 7E", reply(12, 0)),
    ((0, 17, 254), "7E 00 90 00 00 6F 7E", reply(0, 0)),
    ((0, 19, 9600), "7E 00 91 00 00 6E 7E", reply(0, 0)),
    (BAUD, "7E 00 91 00 04 00 00 25 80 C5 7E", reply(13, 9600)),
    (BAUD, "7E 00 91 00 04 00 00 4B 00 1F 7E", reply(13, 19200)),
    (BAUD, "7E 00 91 00 04 00 00 96 00 D4 7E", reply(13, 38400)),
    (BAUD, "7E 00 91 00 04 00 00 E1 00 89 7E", reply(13, 57600)),
    (BAUD, "7E 00 91 00 04 00 01 C2 00 A7 7E", reply(13, 115200)),
    (BAUD, "7E 00 91 00 04 00 00 38 40 F2 7E", no_reply(12)),
    // 002's error codes, and those whose state byte is stuffed
    (VOLATILE, "7E 00 46 01 00 B8 7E", device_error(1)),
    (VOLATILE, "7E 00 46 02 00 B7 7E", device_error(2)),
    (VOLATILE, "7E 00 46 04 00 B5 7E", device_error(4)),
    (VOLATILE, "7E 00 46 29 00 90 7E", device_error(41)),
    (VOLATILE, "7E 00 46 2A 00 8F 7E", device_error(42)),
    (VOLATILE, "7E 00 46 2B 00 8E 7E", device_error(43)),
    (VOLATILE, "7E 00 46 2C 00 8D 7E", device_error(44)),
    (VOLATILE, "7E 00 46 2D 00 8C 7E", device_error(45)),
    (VOLATILE, "7E 00 46 33 00 86 7E", device_error(51)),
    (VOLATILE, "7E 00 46 42 00 77 7E", device_error(66)),
    (VOLATILE, "7E 00 46 43 00 76 7E", device_error(67)),
    (VOLATILE, "7E 00 46 7F 00 3A 7E", device_error(127)),
    (VOLATILE, "7E 00 46 7D 31 00 A8 7E", device_error(17)),
    (VOLATILE, "7E 00 46 7D 33 00 A6 7E", device_error(19)),
    (VOLATILE, "7E 00 46 7D 5D 00 3C 7E", device_error(125)),
    (VOLATILE, "7E 00 46 7D 5E 00 3B 7E", device_error(126)),
    (VOLATILE, "7E 00 46 B3 00 06 7E", flagged(device_error(51))),
    (MEASURED, "7E 00 08 FF 00 F8 7E", flagged(device_error(127))),
    (MEASURED, "7E 00 08 80 04 3F 80 00 00 B4 7E", flagged(reply(2, 0x3F80_0000))),
    // Replies that do not belong to the request, bit 7 beside none of them
    (MEASURED, "7E 00 08 01 04 3F 80 00 00 33 7E", no_reply(14)),
    (MEASURED, "7E 01 08 01 00 F5 7E", no_reply(14)),
    (MEASURED, "7E 00 46 01 00 B8 7E", no_reply(14)),
    (MEASURED, "7E 00 08 00 00 F7 7E", no_reply(14)),
    (MEASURED, "7E 00 08 80 00 77 7E", no_reply(14)),
    (MEASURED, "7E 00 08 00 02 00 00 F5 7E", no_reply(14)),
    ((0, 14, 0), "7E 00 45 04 03 00 00 00 B3 7E", no_reply(14)),
    ((0, 17, 5), "7E 00 90 00 00 6F 7E", reply(0, 0)),
    ((0, 17, 5), "7E 05 90 00 00 6A 7E", no_reply(14)),
    // Floats
    (SETPOINT, "7E 00 00 00 04 FF FF FF FF FF 7E", reply(1, 0xFFFF_FFFF)),
    (SETPOINT, "7E 00 00 00 04 7F 80 00 00 FC 7E", reply(1, 0x7F80_0000)),
    (SETPOINT, "7E 00 00 00 04 FF 80 00 00 7C 7E", reply(1, 0xFF80_0000)),
    (SETPOINT, "7E 00 00 00 04 7F C0 00 00 BC 7E", no_reply(13)),
    (SETPOINT, "7E 00 00 00 04 7F FF FF FF 7F 7E", no_reply(13)),
    (SETPOINT, "7E 00 00 00 04 80 00 00 00 7B 7E", reply(1, 0x8000_0000)),
    (SETPOINT, "7E 00 00 00 04 7F 7F FF FF FF 7E", reply(1, 0x7F7F_FFFF)),
    (SETPOINT, "7E 00 00 00 04 00 00 00 01 FA 7E", reply(1, 1)),
    // Validity and address
    (VALIDITY, NO, reply(9, 0)),
    (VALIDITY, YES, reply(9, 1)),
    (VALIDITY, "7E 00 40 2A 00 95 7E", device_error(42)),
    (VALIDITY, "7E 00 40 00 00 BF 7E", no_reply(14)),
    (VALIDITY, "7E 00 40 00 02 2A 2A 69 7E", no_reply(14)),
    ((0, 16, 0), "7E 00 90 00 01 FF 6F 7E", no_reply(12)),
    // The request's own refusals come before the reply is looked at; a request to all has no reply
    ((255, 17, 5), "7E FF 90 00 00 70 7E", no_reply(10)),
    ((255, 17, 255), "7E FF 90 00 00 70 7E", no_reply(12)),
    ((255, 1, 0x7F80_0000), "7E FF 00 00 00 00 7E", no_reply(13)),
    ((255, 16, 0), "7E FF 90 00 01 00 6F 7E", no_reply(14)),
    ((0, 21, 0), "7E 00 08 00 00 F7 7E", no_reply(11)),
];

fn replies(section: &mut Section) {
    for (asked, wire, expected) in REPLIES {
        for (name, on) in both() {
            let body = body_of(on, 1, wire);
            let found = on.read_reply(asked.0, asked.1, asked.2, &body);
            section.expect(&format!("{name} reads {wire} for {asked:?}"), *expected, found);
            let to_write = match expected.refusal {
                0 => *expected,
                15 => Reply { reply: 15, value: u32::from(expected.code), ..*expected },
                _ => continue,
            };
            let again = write_reply(on, *asked, to_write, &[]);
            section.expect(&format!("{name} writes {wire}"), Ok(hex(wire)), again);
        }
    }
}

/// 02 (ii): bytes over 1 are yes, and yes is written as 01.
const VALIDITIES: &[(&str, Reply, &str)] = &[
    ("7E 00 40 00 01 02 BC 7E", reply(9, 1), YES),
    ("7E 00 40 00 01 2A 94 7E", reply(9, 1), YES),
    ("7E 00 40 00 01 FF BF 7E", reply(9, 1), YES),
    ("7E 00 40 80 01 2A 14 7E", flagged(reply(9, 1)), "7E 00 40 80 01 01 3D 7E"),
    ("7E 00 40 00 01 7D 5E 40 7E", reply(9, 1), YES),
    ("7E 00 40 00 01 7D 31 AD 7E", reply(9, 1), YES),
];

fn validities(section: &mut Section) {
    for (wire, expected, rewritten) in VALIDITIES {
        for (name, on) in both() {
            let body = body_of(on, 1, wire);
            let found = on.read_reply(VALIDITY.0, VALIDITY.1, VALIDITY.2, &body);
            section.expect(&format!("{name} reads {wire}"), *expected, found);
            let again = write_reply(on, VALIDITY, found, &[]);
            section.expect(&format!("{name} writes what {wire} says"), Ok(hex(rewritten)), again);
        }
    }
    for (value, wire) in [(0, NO), (1, YES), (2, YES), (0x2A, YES), (0xFF, YES), (0x100, YES), (u32::MAX, YES)] {
        for (name, on) in both() {
            let found = write_reply(on, VALIDITY, reply(9, value), &[]);
            section.expect(&format!("{name} writes validity {value}"), Ok(hex(wire)), found);
        }
    }
}

/// What is read of a product type's reply, and the frame that the same text gives when it is written.
const TEXTS: &[(&str, &[u8], Result<&str, u8>)] = &[
    ("7E 00 D0 00 05 53 46 43 36 00 18 7E", b"SFC6", Ok("7E 00 D0 00 05 53 46 43 36 00 18 7E")),
    ("7E 00 D0 00 00 2F 7E", b"", Ok("7E 00 D0 00 01 00 2E 7E")),
    ("7E 00 D0 00 04 53 46 43 36 19 7E", b"SFC6", Ok("7E 00 D0 00 05 53 46 43 36 00 18 7E")),
    ("7E 00 D0 00 07 53 46 43 36 00 00 58 BE 7E", b"SFC6", Ok("7E 00 D0 00 05 53 46 43 36 00 18 7E")),
    (
        "7E 00 D0 00 05 7D 31 7D 33 7D 5D 7D 5E 00 0B 7E",
        &[0x11, 0x13, 0x7D, 0x7E],
        Ok("7E 00 D0 00 05 7D 31 7D 33 7D 5D 7D 5E 00 0B 7E"),
    ),
    ("7E 00 D0 00 FF 41*255 71 7E", &[0x41; 255], Err(12)),
    ("7E 00 D0 00 FE 41*254 B3 7E", &[0x41; 254], Ok("7E 00 D0 00 FF 41*254 00 B2 7E")),
    ("7E 00 D0 00 FF 41*254 00 B2 7E", &[0x41; 254], Ok("7E 00 D0 00 FF 41*254 00 B2 7E")),
    ("7E 00 D0 00 7D 31 41*16 00 0E 7E", &[0x41; 16], Ok("7E 00 D0 00 7D 31 41*16 00 0E 7E")),
    ("7E 00 D0 00 7D 33 41*18 00 8A 7E", &[0x41; 18], Ok("7E 00 D0 00 7D 33 41*18 00 8A 7E")),
    ("7E 00 D0 00 7D 5D 41*124 00 36 7E", &[0x41; 124], Ok("7E 00 D0 00 7D 5D 41*124 00 36 7E")),
    ("7E 00 D0 00 7D 5E 41*125 00 F4 7E", &[0x41; 125], Ok("7E 00 D0 00 7D 5E 41*125 00 F4 7E")),
];

fn texts(section: &mut Section) {
    const PRODUCT: Asked = (0, 20, 0);
    for (wire, text, rewritten) in TEXTS {
        for (name, on) in both() {
            let body = body_of(on, 1, wire);
            let expected = Reply { text_start: 4, text_length: text.len(), ..reply(PRODUCT_TYPE, 0) };
            let found = on.read_reply(0, 20, 0, &body);
            section.expect(&format!("{name} reads {wire}"), expected, found);
            section.expect(&format!("{name} has the text of {wire}"), Some(*text), body.get(4..4 + text.len()));
            let again = write_reply(on, PRODUCT, reply(PRODUCT_TYPE, 0), text);
            section.expect(&format!("{name} writes the text of {wire}"), rewritten.map(hex), again);
        }
    }
    // Orders of the writer: 14 before a bad text or code, text beside another reply not looked at, 10 before 14.
    let bad_text = [0; 300];
    let error = |code| reply(15, code);
    #[rustfmt::skip]
    let orders: [(Asked, Reply, Result<Vec<u8>, u8>); 8] = [
        (MEASURED, reply(PRODUCT_TYPE, 0), Err(14)),
        (PRODUCT, reply(PRODUCT_TYPE, 0), Err(12)),
        (PRODUCT, error(1), Ok(hex("7E 00 D0 01 00 2E 7E"))),
        (PRODUCT, error(0), Err(12)),
        (PRODUCT, error(128), Err(12)),
        ((255, 20, 0), error(0), Err(14)),
        ((255, 17, 5), error(0), Err(10)),
        (MEASURED, reply(16, 0), Err(14)),
    ];
    for (asked, reply, expected) in orders {
        for (name, on) in both() {
            let found = write_reply(on, asked, reply, &bad_text);
            section.expect(&format!("{name} writes {reply:?} for {asked:?}"), expected.clone(), found);
        }
    }
}

// ---- Streams

/// Kind, events, items and noise; the places and the noise were counted by hand.
#[rustfmt::skip]
const STREAMS: &[(u8, &str, &str)] = &[
    (0, "7E 00 45 00 BA 7E 11 7E", "F 4@0"),
    (0, "7E 02 43 04 64 A0 22 FC 94 7E", "F"),
    (1, "7E 02 43 04 64 A0 22 FC 94 7E", "7"),
    // A 7D does not swallow the 7E; the earliest of 3 and 4
    (0, "7E 00 45 00 7D 7E 00 45 00 BA 7E", "3@3 F"),
    (0, "7E 7D 11 7E", "3@0"),
    (0, "7E 7D 5D 11 7E", "4@2"),
    (0, "7E 7D 7D 5E 7E", "3@0"),
    (0, "7E 7D 41 11 7E", "3@0"),
    (0, "7E 11 7D 41 7E", "4@0"),
    (0, "7E 7D 7E", "3@0"),
    (0, "7E 00 7D 00 00 11 7E", "3@1"),
    (0, "7E 00 13 7D 00 7E", "4@1"),
    (1, "7E 00 45 00 11 13 7D 7E", "4@3"),
    // A place is counted from the stretch's own 7E; noise, marks and other stretches are not in it
    (0, "7E 00 11 7E 00 00 11 7E", "4@1 4@2"),
    (0, "11 7D 00 7E 00 11 7E", "4@1 noise 3"),
    (0, "7E 7E 7E 13 7E 7E", "4@0"),
    (0, "7E 00 00 M 00 00 00 7E 11 7E", "9 4@0 noise 3"),
    (1, "7E 00 45 00 7D 5E 7D 7E 00 BA 11 7E", "3@5 4@2"),
    // Of an escape before it both bytes count
    (0, "7E 7D 5E 7D 5D 7D 31 7D 33 13 7E", "4@8"),
    (0, "7E 00 7D 31 00 7D 33 00 7D 00 7E", "3@7"),
    (1, "7E 5E 5D 31 33 7D 33 11 7E", "4@6"),
    // Too short, L before the checksum, and the kind's own sizes
    (0, "7E 00 7E", "6"),
    (0, "7E 00 45 00 7E", "6"),
    (0, "7E 7D 5E 7E", "6"),
    (0, "7E 00 45 01 BA 7E", "7"),
    (0, "7E 00 45 00 BB 7E", "8"),
    (1, "7E 00 45 00 BA 7E", "6"),
    // Shared and doubled 7E, noise
    (0, "7E 00 45 00 BA 7E 00 45 00 BA 7E", "F F"),
    (0, "7E 7E 7E 00 45 00 BA 7E 7E", "F"),
    (0, "00 45 00 BA 7E 00 45 00 BA 7E", "F noise 4"),
    // Marks
    (0, "7E 00 45 M 00 BA 7E 00 45 00 BA 7E", "9 F noise 2"),
    (0, "7E M 00 45 00 BA 7E", "noise 4"),
    (0, "7E 7D M 7E", "9"),
    (0, "7E 11 M", "9"),
    (0, "7E 00 45 00 BA 7E M 00 45 00 BA 7E", "F noise 4"),
    (0, "M M 7E M M", ""),
    // The largest sizes; a fault past them still comes first, at its place
    (0, "7E 00*260 7E", "5"),
    (1, "7E 00*260 7E", "7"),
    (1, "7E 00*261 7E", "5"),
    (0, "7E 00*259 7E", "7"),
    (0, "7E 00*300 11 7E", "4@300"),
    (0, "7E 00*70000 11 7E", "4@65535"),
    (0, "7E 00*300 7D 7E", "3@300"),
    (0, "7E 00*258 11 7E", "4@258"),
    (0, "7E 00*259 11 7E", "4@259"),
    (1, "7E 00*260 11 7E", "4@260"),
    (0, "7E 00*261 11 7E", "4@261"),
    (1, "7E 00*262 7D 41 7E", "3@262"),
    (0, "7E 00*260 7D 5D 11 7E", "4@262"),
    (0, "7E 00*261 7D 5D 7D 7E", "3@263"),
    (0, "7E 7D5E*259 11 7E", "4@518"),
    (1, "7E 7D5E*260 11 7E", "4@520"),
    (0, "7E 7D31*260 00 7D 7E", "3@521"),
    (0, "7E 7D33*261 13 7E", "4@522"),
    (0, "7E 7D5D*130 00*130 7D 11 7E", "3@390"),
    (0, "7E 7D5D*130 00*131 7D5D 11 7E", "4@393"),
    (0, "7E 00*300 11 00*100 7D 7E", "4@300"),
    (0, "7E 00*300 7D 00*100 11 7E", "3@300"),
    // The last place that is told; what is past it is told as that
    (0, "7E 00*65533 11 7E", "4@65533"),
    (0, "7E 00*65534 11 7E", "4@65534"),
    (0, "7E 00*65535 11 7E", "4@65535"),
    (0, "7E 00*65536 11 7E", "4@65535"),
    (1, "7E 00*65537 13 7E", "4@65535"),
    (1, "7E 00*65534 7D 7E", "3@65534"),
    (0, "7E 00*65534 7D 11 7E", "3@65534"),
    (0, "7E 00*65535 7D 41 7E", "3@65535"),
    (0, "7E 00*65536 7D 41 7E", "3@65535"),
    (0, "7E 7D5D 00*65532 11 7E", "4@65534"),
    (0, "7E 7D5D 00*65533 11 7E", "4@65535"),
    (0, "7E 7D5D 00*65534 11 7E", "4@65535"),
    (0, "7E 00*65532 7D5D 11 7E", "4@65534"),
    (0, "7E 00*65533 7D5D 11 7E", "4@65535"),
    (0, "7E 00*65534 7D5D 11 7E", "4@65535"),
    (0, "7E 7D5E*32766 7D 7E", "3@65532"),
    (0, "7E 7D5E*32767 13 7E", "4@65534"),
    (0, "7E 7D5E*32767 00 13 7E", "4@65535"),
    (0, "7E 7D5E*32768 13 7E", "4@65535"),
    (0, "7E 7D5E*33000 7D 5F 7E", "3@65535"),
    (0, "7E 11 00*70000 7D 7E", "4@0"),
    (0, "7E 00*65300 7D 00*300 11 7E 00 11 7E", "3@65300 4@1"),
    (0, "7E 00*65536 7E", "5"),
    (0, "7E 00 00 FF 00*255 00 7E", "F"),
    (0, "7E 00 00 FF 00*255 01 7E", "8"),
    (1, "7E 00 00 00 FF 00*255 00 7E", "F"),
    // One byte changed on the wire can make another good frame
    (0, "7E 00 20 5E 5D 00*93 24 7E", "F"),
    (0, "7E 00 7D 5E 5D 00*93 24 7E", "F"),
    (0, "7E 20 5E 01 00 80 7E", "F"),
    (0, "7E 7D 5E 01 00 80 7E", "F"),
    // Good frames of both kinds
    (0, "7E 00 22 01 00 DC 7E", "F"),
    (1, "7E 00 22 01 00 DC 7E", "F"),
    (1, "7E 00 30 01 00 CE 7E", "F"),
    (1, "7E 00 40 01 00 BE 7E", "F"),
    (1, "7E 00 D0 01 00 2E 7E", "F"),
    (1, "7E 00 90 01 00 6E 7E", "F"),
    (1, "7E 00 45 04 03 00 00 00 B3 7E", "F"),
    (1, "7E 00 46 04 03 00 00 00 B2 7E", "F"),
    // Replies to commands outside the table are frames all the same
    (1, "7E 00 03 00 04 3F 80 00 00 39 7E", "F"),
    (1, "7E 00 40 00 04 00 00 00 08 B3 7E", "F"),
    (1, "7E 00 40 00 03 FD 01 04 BA 7E", "F"),
    (1, "7E 00 40 00 04 41 A0 00 00 DA 7E", "F"),
    (1, "7E 00 44 00 04 00 00 00 08 AF 7E", "F"),
    (1, "7E 00 44 00 03 FD 01 04 B6 7E", "F"),
    (1, "7E 00 D0 00 03 31 2D 00 CE 7E", "F"),
    (1, "7E 00 D0 00 03 31 37 00 C4 7E", "F"),
    (1, "7E 00 D1 00 07 01 02 00 01 00 01 00 22 7E", "F"),
    (1, "7E 00 D3 00 00 2C 7E", "F"),
];

/// A stream for a receiver that has counted so much noise: by the definitions, and by both in pieces of several sizes.
fn stream(section: &mut Section, kind: u8, count: u32, text: &str, expected: &str) {
    let stream = events(text);
    let after = counted(u64::from(count) + noise(&stream));
    let defined = (items(crate::cases::kind_of(kind), &stream), Noise { refusal: 0, count: after });
    section.expect(&format!("kind {kind}, noise {count}, then {text}"), expected.to_string(), told(&defined));
    for (name, on) in both() {
        // The reference rebuilds a long stretch at each call, so there the longest streams go in large pieces only.
        let long = stream.len() > 1000 && name == "reference";
        let widths: &[usize] = if long { &[100_000, 4096] } else { &[100_000, 4096, 16, 7, 1] };
        let ways: &[bool] = if stream.contains(&Event::Mark) { &[false, true] } else { &[false] };
        for (&widest, &alone) in widths.iter().flat_map(|widest| ways.iter().map(move |alone| (widest, alone))) {
            let found = received(on, kind, count, &stream, widest, alone);
            let marks = if alone { ", each mark alone" } else { "" };
            let what = format!("{name}, kind {kind}, noise {count}, pieces of {widest}{marks}: {text}");
            section.expect(&what, &defined, &found);
        }
    }
}

fn streams(section: &mut Section) {
    for (kind, text, expected) in STREAMS {
        stream(section, *kind, 0, text, expected);
    }
}

/// 02 (viii), counted by hand: the count of a request's receiver before the first 7E, events; items and noise.
#[rustfmt::skip]
const NOISES: &[(u32, &str, &str)] = &[
    // "A delimiter isn't noise": not the first, nor one of many, nor one behind a mark
    (0, "7E", ""),
    (9, "7E 7E 7E", "noise 9"),
    (0, "M 7E M 7E 7E M", ""),
    (0, "00 7E 7E M 7E", "noise 1"),
    // Any other byte is, whatever it would be in a stretch
    (0, "7D 5E 7D 7D 11 13 5D 7F FE 00 FF", "noise 11"),
    (0, "7D 7E 5E 7E", "6 noise 1"),
    // "nor are bytes of a refused stretch": by each refusal; nor those of a frame
    (0, "00 7E 7D 41 00 7E", "3@0 noise 1"),
    (0, "00 7E 00 11 11 7E", "4@1 noise 1"),
    (0, "00 7E 00*260 7E", "5 noise 1"),
    (0, "00 7E 00 45 7E", "6 noise 1"),
    (0, "00 7E 00 45 01 BA 7E", "7 noise 1"),
    (0, "00 7E 00 45 00 BB 7E", "8 noise 1"),
    (3, "00 7E 00 45 00 BA 7E", "F noise 4"),
    // A stretch that a mark cuts off is refused too, with 9; what follows the mark is noise
    (0, "7E 00 45 M", "9"),
    (0, "7E 00 45 M 00", "9 noise 1"),
    (0, "7E 7D M 5E 7E", "9 noise 1"),
    (0, "7E 11 11 M 11 11 11", "9 noise 3"),
    (0, "7E 00*300 M 00*300 7E", "9 noise 300"),
    // Nor are those of a stretch that is not ended
    (0, "00 00 7E 00 45 00 BA", "noise 2"),
    (0, "7E 00 45 00 BA 7E 00 7D", "F"),
    (0, "7E 00*70000", ""),
    // A mark is no byte, and neither it nor an item sets the count back
    (0, "M M M", ""),
    (5, "M", "noise 5"),
    (0, "00 M 00 M M 00 7E M 00 00", "noise 5"),
    (5, "00 45 00 BA 7E 00 45 00 BA 7E 11 7E M 00", "F 4@0 noise 10"),
    // "stopping at 4,294,967,295"
    (4_294_967_293, "00", "noise 4294967294"),
    (4_294_967_294, "00", "noise 4294967295"),
    (4_294_967_295, "00", "noise 4294967295"),
    (4_294_967_295, "00 00 00 00", "noise 4294967295"),
    (4_294_967_293, "00 00 00 00", "noise 4294967295"),
    (4_294_967_293, "00 M 00 M 00 M 00", "noise 4294967295"),
    (4_294_967_294, "00 7E 00 45 00 BA 7E M 00 7E", "F noise 4294967295"),
    (4_294_967_295, "7E 00 M 00 M", "9 noise 4294967295"),
    (4_294_967_000, "00*294", "noise 4294967294"),
    (4_294_967_000, "00*295", "noise 4294967295"),
    (4_294_967_000, "00*296", "noise 4294967295"),
    (4_294_897_295, "00*69999 7E", "noise 4294967294"),
    (4_294_897_295, "00*70000 7E", "noise 4294967295"),
    (4_294_897_295, "00*70001 7E", "noise 4294967295"),
    // Runs past 65,535, and counts at which a byte or the highest bit of the count changes
    (0, "00*65535 7E", "noise 65535"),
    (0, "00*65536 7E", "noise 65536"),
    (0, "00*70000 7E 00*70000 7E", "5 noise 70000"),
    (0, "00*70000 M 00*70000 7E", "noise 140000"),
    (255, "00", "noise 256"),
    (65_535, "00", "noise 65536"),
    (16_777_214, "00 00 00", "noise 16777217"),
    (2_147_483_647, "00", "noise 2147483648"),
];

fn noises(section: &mut Section) {
    for (count, text, expected) in NOISES {
        stream(section, 0, *count, text, expected);
    }
    for (name, on) in both() {
        // "old records are not carried over": those had 264 bytes.
        for size in [0, 4, 8, 260, 264, 267] {
            let (mut record, mut frame) = (vec![0; size], [0; STORE]);
            let what = format!("{name}, a record of {size} bytes");
            for (silence, piece) in [(0, &[0][..]), (1, &[0]), (1, &[])] {
                let fed = on.feed(&mut record, silence, piece, &mut frame);
                section.expect(&what, Fed { refusal: 2, ..Fed::default() }, fed);
            }
            section.expect(&what, Noise { refusal: 2, count: 0 }, on.receiver_noise(&record));
            section.expect(&what, 1, on.receiver_fresh(1, &mut record));
            section.expect(&format!("{what}, after it"), vec![0; size], record);
        }
        // A fresh receiver has counted nothing, whatever stood there.
        let mut record = [0xFF; RECORD];
        section.expect(&format!("{name}, fresh"), 0, on.receiver_fresh(1, &mut record));
        section.expect(&format!("{name}, fresh"), hex("01 00*267"), record.to_vec());
        section.expect(&format!("{name}, fresh"), Noise { refusal: 0, count: 0 }, on.receiver_noise(&record));
        // With refusal 1 nothing is taken, and so nothing is counted.
        let (fives, mut frame) = (hex("00 00 00 00 00 00 00 05 00*260"), [0; STORE - 1]);
        record.copy_from_slice(&fives);
        for silence in [0, 1] {
            let fed = on.feed(&mut record, silence, &[0, 0, 0], &mut frame);
            section.expect(&format!("{name}, short room"), Fed { refusal: 1, ..Fed::default() }, fed);
        }
        section.expect(&format!("{name}, short room"), fives, record.to_vec());
        section.expect(&format!("{name}, short room"), Noise { refusal: 0, count: 5 }, on.receiver_noise(&record));
    }
}

/// What a call hands in, from text: M before the bytes says that silence came before them.
fn handed(text: &str) -> (bool, Vec<u8>) {
    match text.strip_prefix('M') {
        Some(bytes) => (true, hex(bytes)),
        None => (false, hex(text)),
    }
}

/// By 02 (ix), a receiver of requests from its fresh record: each call, the room lent, what it gives and the bytes that
/// it takes; then the first bytes of the record, with its count of noise. Every frame is 00 45 00 BA.
type Calls = (&'static [(&'static str, usize, &'static str, usize)], &'static str);

#[rustfmt::skip]
const CALLS: &[Calls] = &[
    // "if that gives refusal 9, the call takes no bytes and the rest is handed in without the flag"
    (&[("7E 00 45", 260, "", 3), ("M 7E 00 45 00 BA 7E", 260, "9", 0), ("7E 00 45 00 BA 7E", 260, "F", 6)],
     "00 01 00 00 00 00 00 00"),
    (&[("7E 00 45", 260, "", 3), ("M 00 BA 7E 00 45 00 BA 7E", 260, "9", 0), ("00 BA 7E 00 45 00 BA 7E", 260, "F", 8)],
     "00 01 00 00 00 00 00 02"),
    (&[("7E 7D", 260, "", 2), ("M 7E", 260, "9", 0), ("7E", 260, "", 1)], "00 01 00 00 00 00 00 00"),
    (&[("7E 11", 260, "", 2), ("M 11", 260, "9", 0), ("11", 260, "", 1)], "00 00 00 00 00 00 00 01"),
    (&[("7E 7D 41", 260, "", 3), ("M 7E", 260, "9", 0)], "00 00 00 00 00 00 00 00"),
    (&[("7E 00 45 00 BA", 260, "", 5), ("M 7E", 260, "9", 0), ("7E", 260, "", 1)], "00 01 00 00 00 00 00 00"),
    // A mark that cuts nothing off: the piece is taken at once, as noise up to its first 7E
    (&[("M 7E 00 45 00 BA 7E", 260, "F", 6)], "00 01 00 00 00 00 00 00"),
    (&[("7E", 260, "", 1), ("M 7E 00 45 00 BA 7E", 260, "F", 6)], "00 01 00 00 00 00 00 00"),
    (&[("7E 00 45 00 BA 7E", 260, "F", 6), ("M 7E 00 45 00 BA 7E", 260, "F", 6)], "00 01 00 00 00 00 00 00"),
    (&[("7E", 260, "", 1), ("M 00 45 00 BA 7E", 260, "", 5)], "00 01 00 00 00 00 00 04"),
    (&[("7E 00 45 00 BA 7E", 260, "F", 6), ("M 00 45 00 BA 7E 11 7E", 260, "4@0", 7)], "00 01 00 00 00 00 00 04"),
    (&[("M 11 7E 11 7E 00 45", 260, "4@0", 4), ("00 45", 260, "", 2)], "00 01 00 02 00 00 00 01"),
    (&[("00 7D", 260, "", 2), ("M 5E 7E", 260, "", 2)], "00 01 00 00 00 00 00 03"),
    // "An empty piece may carry the flag too", "takes 0 and gives what its mark gives, 9 or nothing"
    (&[("M", 260, "", 0)], "00 00 00 00 00 00 00 00"),
    (&[("7E 00", 260, "", 2), ("M", 260, "9", 0), ("M", 260, "", 0)], "00 00 00 00 00 00 00 00"),
    (&[("7E 7D", 260, "", 2), ("M", 300, "9", 0), ("5E 7E", 300, "", 2)], "00 01 00 00 00 00 00 01"),
    (&[("7E 13", 260, "", 2), ("M", 260, "9", 0)], "00 00 00 00 00 00 00 00"),
    (&[("7E", 260, "", 1), ("M", 260, "", 0)], "00 00 00 00 00 00 00 00"),
    (&[("7E", 260, "", 1), ("M", 260, "", 0), ("00 45 00 BA 7E", 260, "", 5)], "00 01 00 00 00 00 00 04"),
    (&[("7E 7E 7E", 260, "", 3), ("M", 260, "", 0), ("11", 260, "", 1)], "00 00 00 00 00 00 00 01"),
    (&[("7E 00 45 00 BA 7E", 260, "F", 6), ("M", 260, "", 0)], "00 00 00 00 00 00 00 00"),
    // "it asks for the 260 bytes like any other call"
    (&[("M", 259, "1", 0)], "00 00 00 00 00 00 00 00"),
    (&[("M", 0, "1", 0)], "00 00 00 00 00 00 00 00"),
    (&[("7E", 260, "", 1), ("M", 259, "1", 0)], "00 01 00 00 00 00 00 00"),
    // "document 01's sentence on empty pieces stays for those without the flag"
    (&[("7E 00 45", 260, "", 3), ("", 260, "", 0), ("00 BA 7E", 260, "F", 3)], "00 01 00 00 00 00 00 00"),
    (&[("7E 00 45", 260, "", 3), ("", 259, "1", 0), ("00 BA 7E", 260, "F", 3)], "00 01 00 00 00 00 00 00"),
    // "A refused call (1 or 2) has not dealt with the mark": it is still to be dealt with, and else the stretch goes on
    (&[("7E 00", 260, "", 2), ("M", 259, "1", 0), ("M", 260, "9", 0)], "00 00 00 00 00 00 00 00"),
    (&[("7E 00 45", 260, "", 3), ("M", 259, "1", 0), ("00 BA 7E", 260, "F", 3)], "00 01 00 00 00 00 00 00"),
    (&[("7E 00 45", 260, "", 3), ("M 00 BA 7E", 259, "1", 0), ("00 BA 7E", 260, "F", 3)], "00 01 00 00 00 00 00 00"),
    (&[("7E", 260, "", 1), ("M 00", 0, "1", 0), ("00 45 00 BA 7E", 260, "F", 5)], "00 01 00 00 00 00 00 00"),
    (&[("7E 00", 260, "", 2), ("M 7E 00", 259, "1", 0), ("M 7E 00", 260, "9", 0), ("7E 00", 260, "", 2)],
     "00 01 00 01 00 00 00 00"),
    (&[("M 7E 00 45 00 BA 7E", 259, "1", 0), ("M 7E 00 45 00 BA 7E", 260, "F", 6)], "00 01 00 00 00 00 00 00"),
];

fn calls(section: &mut Section) {
    // Any number but 0 says that there was silence.
    for silence in [1, 2, 9, 0x7E, 0x80, 0xFF] {
        for ((name, on), (calls, after)) in both().into_iter().flat_map(|on| CALLS.iter().map(move |row| (on, row))) {
            let mut record = [0; RECORD];
            assert_eq!(on.receiver_fresh(0, &mut record), 0);
            for (call, room, gives, taken) in *calls {
                let (flag, piece) = handed(call);
                let (before, mut frame, mut expected_frame) = (record, vec![0xEE; *room], vec![0xEE; *room]);
                let found = on.feed(&mut record, if flag { silence } else { 0 }, &piece, &mut frame);
                let what = format!("{name}, {calls:?} with M as {silence}: {call} in room of {room}");
                let mut expected = Fed { taken: *taken, ..Fed::default() };
                match gives.split_once('@').unwrap_or((*gives, "0")) {
                    ("", _) => {}
                    ("F", _) => {
                        expected.frame_length = 4;
                        expected_frame[..4].copy_from_slice(&hex("00 45 00 BA"));
                    }
                    (refusal, place) => {
                        expected.refusal = refusal.parse().expect("a refusal");
                        expected.place = place.parse().expect("a place");
                    }
                }
                section.expect(&what, expected, found);
                section.expect(&format!("{what}, its frame"), Hex(expected_frame), Hex(frame));
                if expected.refusal == 1 {
                    section.expect(&format!("{what}, its record"), Hex(before.to_vec()), Hex(record.to_vec()));
                }
            }
            section.expect(&format!("{name}, after {calls:?}"), Hex(hex(after)), Hex(record[..HEAD].to_vec()));
        }
    }
    // A record out of its ranges comes before short room, whatever is handed in; all of it comes back as it was.
    for text in ["02 01 00 01 00*264", "00 05 00 01 00*264", "00 00 00 01 00*264", "00 01 00 01 00*263", ""] {
        for ((name, on), call) in both().into_iter().flat_map(|on| ["M", "M 7E 00", "", "00"].map(|call| (on, call))) {
            for room in [0, 259, 260] {
                let (mut record, (flag, piece), mut frame) = (hex(text), handed(call), vec![0xEE; room]);
                let found = on.feed(&mut record, u8::from(flag), &piece, &mut frame);
                let what = format!("{name}, the record {text}: {call} in room of {room}");
                section.expect(&what, Fed { refusal: 2, ..Fed::default() }, found);
                section.expect(&what, (Hex(hex(text)), Hex(vec![0xEE; room])), (Hex(record), Hex(frame)));
            }
        }
    }
}

/// By docs/RECORD.md, 02 (vii), (viii) and (ix), counted by hand: the first bytes of a record, its count of noise 0
/// where they are four, the byte that its store is full of, a piece, M before it for silence; the refusal, its place,
/// and these bytes after the call.
#[rustfmt::skip]
const RECORDS: &[(&str, u8, &str, u8, u16, &str)] = &[
    // Nothing stored, one byte, and one that was received as two
    ("00 01 00 00", 0x7D, "11 7E", 4, 0, "00 01 00 00"),
    ("00 01 00 01", 0x00, "11 7E", 4, 1, "00 01 00 00"),
    ("00 01 00 01", 0x7D, "11 7E", 4, 2, "00 01 00 00"),
    ("01 02 00 01", 0x7E, "7E", 3, 2, "01 01 00 00"),
    ("00 02 00 02", 0x00, "5D 7D 7E", 3, 4, "00 01 00 00"),
    // A fault that is found stays, and so does the length
    ("00 03 00 02", 0x11, "7E", 3, 4, "00 01 00 00"),
    ("00 03 00 02", 0x11, "00 11", 0, 0, "00 03 00 02"),
    ("01 04 00 03", 0x13, "7D 00 7E", 4, 6, "01 01 00 00"),
    ("01 04 01 2C", 0x00, "00 7D 00 7E", 4, 300, "01 01 00 00"),
    ("01 04 01 2C", 0x00, "00 7D 00", 0, 0, "01 04 01 2C"),
    // 259 to 262: past the store each received byte counts, two for an escape, and a 7D only with what follows it
    ("00 01 01 03", 0x00, "00", 0, 0, "00 01 01 04"),
    ("00 01 01 03", 0x00, "7D 5D", 0, 0, "00 01 01 04"),
    ("00 01 01 04", 0x00, "00", 0, 0, "00 01 01 05"),
    ("00 01 01 04", 0x00, "7D", 0, 0, "00 02 01 04"),
    ("00 01 01 04", 0x00, "7D 5D", 0, 0, "00 01 01 06"),
    ("00 02 01 05", 0x00, "33", 0, 0, "00 01 01 07"),
    ("00 02 01 05", 0x00, "41", 0, 0, "00 03 01 05"),
    ("00 01 01 03", 0x00, "11 7E", 4, 259, "00 01 00 00"),
    ("00 01 01 04", 0x00, "11 7E", 4, 260, "00 01 00 00"),
    ("00 01 01 04", 0x7E, "11 7E", 4, 520, "00 01 00 00"),
    ("00 01 01 05", 0x00, "13 7E", 4, 261, "00 01 00 00"),
    ("00 01 01 06", 0x00, "13 7E", 4, 262, "00 01 00 00"),
    ("00 01 01 06", 0x13, "00 7D 7E", 3, 523, "00 01 00 00"),
    ("00 01 01 06", 0x00, "7E", 5, 0, "00 01 00 00"),
    ("01 01 01 05", 0x00, "7E", 5, 0, "01 01 00 00"),
    ("01 01 01 04", 0x00, "7E", 7, 0, "01 01 00 00"),
    // 65,533 to 65,535, where it stops
    ("00 01 FF FD", 0x00, "00", 0, 0, "00 01 FF FE"),
    ("00 01 FF FD", 0x00, "7D 5D", 0, 0, "00 01 FF FF"),
    ("00 01 FF FE", 0x00, "7D 5D", 0, 0, "00 01 FF FF"),
    ("00 01 FF FF", 0x00, "00 00 7D 5D 7D", 0, 0, "00 02 FF FF"),
    ("00 01 FF FE", 0x00, "00 13", 0, 0, "00 04 FF FF"),
    ("00 01 FF FD", 0x00, "11 7E", 4, 65_533, "00 01 00 00"),
    ("00 01 FF FD", 0x00, "00 11 7E", 4, 65_534, "00 01 00 00"),
    ("00 01 FF FD", 0x00, "7D 5D 11 7E", 4, 65_535, "00 01 00 00"),
    ("00 01 FF FD", 0x00, "7D 5D 00 11 7E", 4, 65_535, "00 01 00 00"),
    ("00 02 FF FE", 0x00, "7E", 3, 65_534, "00 01 00 00"),
    ("00 02 FF FF", 0x00, "7E", 3, 65_535, "00 01 00 00"),
    ("01 01 FF FF", 0x00, "11 7E", 4, 65_535, "01 01 00 00"),
    ("01 01 FF FF", 0x00, "7E", 5, 0, "01 01 00 00"),
    // 65,274 with 260 stored bytes that were received as 520: 520 + 65,014
    ("00 01 FE FA", 0x11, "11 7E", 4, 65_534, "00 01 00 00"),
    ("00 01 FE FB", 0x11, "11 7E", 4, 65_535, "00 01 00 00"),
    ("00 04 FE FC", 0x11, "11 7E", 4, 65_535, "00 01 00 00"),
    ("00 03 FF FF", 0x11, "7E", 3, 65_535, "00 01 00 00"),
    // Out of their ranges: a length in noise, a kind and a mode that are none
    ("00 00 00 01", 0x00, "11 7E", 2, 0, "00 00 00 01"),
    ("00 00 01 04", 0x00, "11 7E", 2, 0, "00 00 01 04"),
    ("01 00 FF FF", 0x00, "7E", 2, 0, "01 00 FF FF"),
    ("02 01 00 01", 0x00, "11 7E", 2, 0, "02 01 00 01"),
    ("00 05 00 01", 0x00, "11 7E", 2, 0, "00 05 00 01"),
    // The count of noise, its highest byte first; none in a stretch, and none with refusal 2
    ("00 00 00 00", 0x00, "11 7D 7E", 0, 0, "00 01 00 00 00 00 00 02"),
    ("01 00 00 00 01 02 03 04", 0x55, "00", 0, 0, "01 00 00 00 01 02 03 05"),
    ("01 00 00 00 01 02 03 FE", 0x55, "00 11 13 7E 00", 0, 0, "01 01 00 01 01 02 04 01"),
    ("00 00 00 00 00 FF FF FF", 0x00, "00", 0, 0, "00 00 00 00 01 00 00 00"),
    ("00 00 00 00 FF FF FF FD", 0x00, "00", 0, 0, "00 00 00 00 FF FF FF FE"),
    ("00 00 00 00 FF FF FF FE", 0x00, "00 00 7E 00", 0, 0, "00 01 00 01 FF FF FF FF"),
    ("00 00 00 00 FF FF FF FF", 0x00, "00", 0, 0, "00 00 00 00 FF FF FF FF"),
    ("00 01 00 01 01 02 03 04", 0x00, "11 00 7E", 4, 1, "00 01 00 00 01 02 03 04"),
    ("00 02 00 01 FF FF FF FF", 0x00, "7E", 3, 1, "00 01 00 00 FF FF FF FF"),
    ("00 00 00 01 01 02 03 04", 0x00, "00 00", 2, 0, "00 00 00 01 01 02 03 04"),
    ("02 00 00 00 01 02 03 04", 0x00, "00 00", 2, 0, "02 00 00 00 01 02 03 04"),
    ("00 05 00 00 FF FF FF FF", 0x00, "00 00", 2, 0, "00 05 00 00 FF FF FF FF"),
    // Silence outside and in an empty stretch: the piece is noise up to its first 7E
    ("00 00 00 00", 0x00, "M", 0, 0, "00 00 00 00"),
    ("01 00 00 00", 0x00, "M 00 7E", 0, 0, "01 01 00 00 00 00 00 01"),
    ("01 01 00 00", 0x00, "M", 0, 0, "01 00 00 00"),
    ("00 01 00 00", 0x7D, "M 11 7E", 0, 0, "00 01 00 00 00 00 00 01"),
    ("00 01 00 00", 0x00, "M 00 7E 11 7E", 4, 0, "00 01 00 00 00 00 00 01"),
    ("00 01 00 00 FF FF FF FE", 0x00, "M 00 00 7E 00", 0, 0, "00 01 00 01 FF FF FF FF"),
    // Silence in a stretch with a byte, also where that is a 7D or a fault: 9, and no byte is taken or counted
    ("00 01 00 01", 0x00, "M", 9, 0, "00 00 00 00"),
    ("01 01 00 01", 0x00, "M 7E", 9, 0, "01 00 00 00"),
    ("00 02 00 00", 0x00, "M", 9, 0, "00 00 00 00"),
    ("00 02 00 00", 0x00, "M 5E 7E", 9, 0, "00 00 00 00"),
    ("00 03 00 00", 0x00, "M 7E", 9, 0, "00 00 00 00"),
    ("01 04 00 00", 0x00, "M 7E", 9, 0, "01 00 00 00"),
    ("00 03 00 02", 0x11, "M 7E", 9, 0, "00 00 00 00"),
    ("01 04 01 2C", 0x00, "M 00 7D 00 7E", 9, 0, "01 00 00 00"),
    ("00 01 01 04", 0x00, "M 7E", 9, 0, "00 00 00 00"),
    ("00 01 FF FF", 0x00, "M 00", 9, 0, "00 00 00 00"),
    ("00 04 FF FF", 0x00, "M", 9, 0, "00 00 00 00"),
    ("00 01 00 01 01 02 03 04", 0x00, "M 00 00", 9, 0, "00 00 00 00 01 02 03 04"),
    ("01 02 00 01 FF FF FF FF", 0x00, "M 00 00", 9, 0, "01 00 00 00 FF FF FF FF"),
    // Out of their ranges with silence too
    ("00 00 00 01", 0x00, "M", 2, 0, "00 00 00 01"),
    ("01 00 FF FF", 0x00, "M 7E", 2, 0, "01 00 FF FF"),
    ("02 01 00 01", 0x00, "M", 2, 0, "02 01 00 01"),
    ("00 05 00 01 01 02 03 04", 0x00, "M 11 7E", 2, 0, "00 05 00 01 01 02 03 04"),
];

fn records(section: &mut Section) {
    let head = |text: &str| {
        let mut bytes = hex(text);
        bytes.resize(HEAD, 0);
        bytes
    };
    for (before, stored, piece, refusal, place, after) in RECORDS {
        for (name, on) in both() {
            let (mut record, (silence, bytes), mut frame) = ([*stored; RECORD], handed(piece), [0; STORE]);
            record[..HEAD].copy_from_slice(&head(before));
            let fed = on.feed(&mut record, u8::from(silence), &bytes, &mut frame);
            let taken = if [2, 9].contains(refusal) { 0 } else { bytes.len() };
            let expected = Fed { refusal: *refusal, place: *place, frame_length: 0, taken };
            let what = format!("{name}, a record {before} with {stored:02X} stored, fed {piece}");
            section.expect(&what, expected, fed);
            section.expect(&format!("{what}, after it"), head(after), record[..HEAD].to_vec());
            let count = head(after)[4..].iter().fold(0, |so_far, &byte| so_far * 256 + u32::from(byte));
            let good = Noise { refusal: 0, count };
            let expected = if *refusal == 2 { Noise { refusal: 2, count: 0 } } else { good };
            section.expect(&format!("{what}, its noise"), expected, on.receiver_noise(&record));
        }
    }
}

// ---- Checksum, CRC, words, commands, registers

/// Bytes, the CRC from 00, the CRC from FF.
pub const CRCS: &[(&str, u8, u8)] = &[
    ("31 32 33 34 35 36 37 38 39", 0xA2, 0xF7),
    ("0E 00", 0x6D, 0xEC),
    ("BE EF", 0x13, 0x92),
    ("36 08", 0x51, 0xD0),
    ("FF FF", 0x2D, 0xAC),
    ("00 00", 0x00, 0x81),
    ("02 07", 0x4E, 0xCF),
    ("01 0F", 0xDA, 0x5B),
    ("00 01", 0x31, 0xB0),
    ("80 00", 0x23, 0xA2),
    ("7F FF", 0x0E, 0x8F),
    ("90 00", 0x4D, 0xCC),
    ("58 00", 0xD0, 0x51),
    ("01 48", 0x70, 0xF1),
    ("01 45", 0x3C, 0xBD),
    ("0E 10", 0x2E, 0xAF),
    ("0E 40", 0x50, 0xD1),
    ("08 43", 0x59, 0xD8),
    ("08 44", 0xCE, 0x4F),
    ("08 45", 0xFF, 0x7E),
    ("08 34", 0x36, 0xB7),
    ("08 55", 0xBC, 0x3D),
    ("F7 34", 0xB7, 0x36),
    ("FF F9", 0x8B, 0x0A),
    ("", 0x00, 0xFF),
    ("00", 0x00, 0xAC),
    ("FF", 0xAC, 0x00),
];

/// The CRC of one byte from 00, for the bytes 00 to 0F and F0 to FF.
pub const CRC_ROWS: [(u8, &str); 2] = [
    (0x00, "00 31 62 53 C4 F5 A6 97 B9 88 DB EA 7D 4C 1F 2E"),
    (0xF0, "82 B3 E0 D1 46 77 24 15 3B 0A 59 68 FF CE 9D AC"),
];

fn sums(section: &mut Section) {
    for (name, on) in both() {
        let sum = on.checksum(&hex("02 43 04 64 A0 22 FC"));
        section.expect(&format!("{name}: the checksum of 002's example"), 0x94, sum);
        for (text, from_00, from_ff) in CRCS {
            let bytes = hex(text);
            let found = (on.crc(0x00, &bytes), on.crc(0xFF, &bytes));
            section.expect(&format!("{name}: the CRCs of {text}"), (*from_00, *from_ff), found);
        }
        for (first, row) in CRC_ROWS {
            for (offset, expected) in (0..).zip(hex(row)) {
                section.expect(&format!("{name}: the CRC of a byte"), expected, on.crc(0, &[first + offset]));
            }
        }
    }
}

/// Start, bytes, words with room enough.
#[rustfmt::skip]
const WORDS: &[(u8, &str, Result<&[u16], (u8, usize)>)] = &[
    (0x00, "00 00 00", Ok(&[0])),
    (0xFF, "00 00 00", Err((17, 0))),
    (0x00, "FF FF FF", Err((17, 0))),
    (0xFF, "FF FF FF", Err((17, 0))),
    (0x00, "0E 00 6D", Ok(&[0x0E00])),
    (0xFF, "BE EF 92 00 00 81", Ok(&[0xBEEF, 0])),
    (0xFF, "BE EF 92 00 00 80 00 00 80", Err((17, 1))),
    (0xFF, "", Err((16, 0))),
    (0xFF, "BE EF", Err((16, 0))),
    (0xFF, "BE EF 93 00", Err((16, 0))),
];

fn words(section: &mut Section) {
    for (start, text, expected) in WORDS {
        for (name, on) in both() {
            let mut room = [0; 8];
            let found = on.read_words(*start, &hex(text), &mut room);
            let found = if found.refusal == 0 { Ok(&room[..found.count]) } else { Err((found.refusal, found.count)) };
            section.expect(&format!("{name} reads the words {text} from {start:02X}"), *expected, found);
            if let Ok(values) = expected {
                let mut out = [0; 32];
                let answer = on.write_words(*start, values, &mut out);
                section.expect(&format!("{name} writes the words {text}"), Ok(hex(text)), written(answer, &out));
            }
        }
    }
    for (name, on) in both() {
        // A wrong word is told before short room; short room stores nothing.
        let short = on.read_words(0xFF, &hex("BE EF 92 00 00 80"), &mut [0; 1]);
        section.expect(&format!("{name}: 17 before 1"), Words { refusal: 17, count: 1 }, short);
        let short = on.read_words(0xFF, &hex("BE EF 92 00 00 81"), &mut [0; 1]);
        section.expect(&format!("{name}: short room"), Words { refusal: 1, count: 0 }, short);
        let none = on.write_words(0xFF, &[], &mut [0; 4]);
        section.expect(&format!("{name}: no words"), Written { refusal: 16, length: 0 }, none);
    }
}

const SFC6: &[(u16, u32, Result<&str, u8>)] = &[
    (0xE102, 0, Ok("E1 02")),
    (0xE000, 9999, Ok("E0 00")),
    (0x3FEF, 0, Ok("3F EF")),
    (0x3F6E, 0, Ok("3F 6E")),
    (0xE17D, 0, Ok("E1 7D 00 00 81")),
    (0xE17D, 1, Ok("E1 7D 00 01 B0")),
    (0xE17D, 500, Ok("E1 7D 01 F4 33")),
    (0xE17D, 999, Ok("E1 7D 03 E7 FA")),
    (0xE17D, 1000, Ok("E1 7D 03 E8 D4")),
    (0x3650, 250, Ok("36 50 00 FA D8")),
    (0x365B, 1000, Ok("36 5B 03 E8 D4")),
    (0xE17D, 1001, Err(12)),
    (0x3650, 0xC0FF, Err(12)),
    (0x365B, 65_537, Err(12)),
    (0x3661, 0, Err(12)),
    (0x3FF9, 0, Err(12)),
];

const LIQUID: &[(u8, u16, Result<&str, u8>)] = &[
    (0xE2, 0x0E10, Ok("E2 0E 10")),
    (0xE3, 0x0E10, Ok("E3")),
    (0xE4, 0xF1FF, Ok("E4 F1 FF")),
    (0xE5, 0, Ok("E5")),
    (0xF1, 0, Ok("F1")),
    (0xF3, 0, Ok("F3")),
    (0xF5, 0, Ok("F5")),
    (0xFE, 0, Ok("FE")),
    (0xFA, 0, Err(12)),
];

fn commands(section: &mut Section) {
    for (name, on) in both() {
        for (code, concentration, expected) in SFC6 {
            let mut out = [0; 8];
            let answer = on.write_sfc6(*code, *concentration, &mut out);
            section.expect(&format!("{name}: {code:04X} {concentration}"), expected.map(hex), written(answer, &out));
        }
        for (code, value, expected) in LIQUID {
            let mut out = [0; 8];
            let answer = on.write_liquid(*code, *value, &mut out);
            section.expect(&format!("{name}: {code:02X} {value:04X}"), expected.map(hex), written(answer, &out));
        }
    }
}

fn registers(section: &mut Section) {
    const USER: &[(u16, u32, u16)] = &[
        (0x0E00, 0, 0x0E00),
        (0x0E00, 1, 0x0E10),
        (0x0E00, 2, 0x0E20),
        (0x0E00, 3, 0x0E30),
        (0x0E00, 4, 0x0E40),
        (0x0E70, 4, 0x0E40),
        (0xFFFF, 0, 0xFF8F),
        (0xFFFF, 4, 0xFFCF),
    ];
    const ADVANCED: [u16; 8] = [0xF1FF, 0xF3FF, 0xF5FF, 0xF7FF, 0xF9FF, 0xFBFF, 0xFDFF, 0xFFFF];
    let good = |value| Register { refusal: 0, value };
    let bad = Register { refusal: 12, value: 0 };
    for (name, on) in both() {
        for (value, field, expected) in USER {
            section.expect(&format!("{name}: user {value:04X}"), good(*expected), on.edit_user(*value, *field));
        }
        for field in [5, 6, 7, 8, 255] {
            section.expect(&format!("{name}: user field {field}"), bad, on.edit_user(0x0E00, field));
        }
        for (field, expected) in (0..).zip(ADVANCED) {
            section.expect(&format!("{name}: advanced {field}"), good(expected), on.edit_advanced(0xFFFF, field));
        }
        section.expect(&format!("{name}: advanced 0000"), good(0x0E00), on.edit_advanced(0, 7));
        section.expect(&format!("{name}: advanced field 8"), bad, on.edit_advanced(0, 8));
    }
}

// ---- Scaled readings

/// Raw, offset, scale, thousandths, the bits of the float.
const SCALED: &[(i16, i16, i32, i32, u32)] = &[
    (1, 0, 2000, 1, 0x3A03_126F),
    (1, 0, 2001, 0, 0x3A03_01AA),
    (-1, 0, 2000, -1, 0xBA03_126F),
    (-28672, -28672, 1024, 0, 0),
    (22528, -28672, 1024, 50_000, 0x4248_0000),
    (22528, -28672, 2560, 20_000, 0x41A0_0000),
    (22528, -28672, 5120, 10_000, 0x4120_0000),
    (22528, -28672, 10240, 5000, 0x40A0_0000),
    (22528, -28672, 25600, 2000, 0x4000_0000),
    (32767, -28672, 1024, 59_999, 0x426F_FF00),
    (-32768, -28672, 1024, -4000, 0xC080_0000),
    (5000, 0, 200, 25_000, 0x41C8_0000),
    (4701, 0, 200, 23_505, 0x41BC_0A3D),
    (-1, 0, 200, -5, 0xBBA3_D70A),
    (235, 0, 10, 23_500, 0x41BC_0000),
    (3300, 0, 1000, 3300, 0x4053_3333),
    (32767, -32768, 1, 65_535_000, 0x477F_FF00),
    (-32768, 32767, 1, -65_535_000, 0xC77F_FF00),
    (1, 0, 16, 63, 0x3D80_0000),
    (-1, 0, 16, -63, 0xBD80_0000),
    (3, 0, 16, 188, 0x3E40_0000),
    (-3, 0, 16, -188, 0xBE40_0000),
    (16, 0, 32000, 1, 0x3A03_126F),
    (16, 0, 32001, 0, 0x3A03_1162),
    (-16, 0, 32000, -1, 0xBA03_126F),
    (1, 0, 32767, 0, 0x3800_0100),
    (1, 0, 3, 333, 0x3EAA_AAAB),
    (-1, 0, 3, -333, 0xBEAA_AAAB),
];

fn scaled(section: &mut Section) {
    for (name, on) in both() {
        for (raw, offset, scale, thousandths, bits) in SCALED {
            let what = format!("{name}: ({raw} - {offset}) / {scale}");
            let expected = Thousandths { refusal: 0, value: *thousandths };
            section.expect(&what, expected, on.scaled(*raw, *offset, *scale));
            let expected = Quantity { refusal: 0, value: f32::from_bits(*bits) };
            section.expect(&what, expected, on.scaled_float(*raw, *offset, *scale));
        }
        for scale in [0, 32_768, 65_535, -1, 65_537, i32::MIN, i32::MAX] {
            let what = format!("{name}: scale {scale}");
            section.expect(&what, Thousandths { refusal: 18, value: 0 }, on.scaled(1, 0, scale));
            section.expect(&what, Quantity { refusal: 18, value: 0.0 }, on.scaled_float(1, 0, scale));
        }
    }
}

pub fn run(report: &mut Report) {
    report.section("vectors: requests", requests);
    report.section("vectors: replies", replies);
    report.section("vectors: validities", validities);
    report.section("vectors: texts and orders", texts);
    report.section("vectors: streams", streams);
    report.section("vectors: noise", noises);
    report.section("vectors: silence and bytes in one call", calls);
    report.section("vectors: records", records);
    report.section("vectors: checksum and CRC", sums);
    report.section("vectors: words", words);
    report.section("vectors: I2C commands", commands);
    report.section("vectors: registers", registers);
    report.section("vectors: scaled readings", scaled);
}
