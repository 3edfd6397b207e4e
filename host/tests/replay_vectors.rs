//! Document 02 (vi), the replay, sentence by sentence: known answers, each tried on the reference and on the library.
//! Frames are bytes in hex, made by hand of 01's tables.

use crate::board::{listed, CALIBRATION, SERIAL};
use crate::harness::{Hex, Report, Section};
use crate::interface::*;
use crate::log::file_of;
use crate::vectors::{both, hex};

/// A record: kind, and the bytes of its body in hex.
type Part = (u8, &'static str);

/// 01, example 6, and an answer to it: volatile calibration 1 at address 2. Then the same at 5.
const OPEN_2: Part = (1, "7E 02 46 04 00 00 00 01 B2 7E");
const OPENED_2: Part = (2, "7E 02 46 00 00 B7 7E");
const OPEN_5: Part = (1, "7E 05 46 04 00 00 00 01 AF 7E");
const OPENED_5: Part = (2, "7E 05 46 00 00 B4 7E");
/// Set calibration 1 at 2, and an answer to it.
const CLOSE_2: Part = (1, "7E 02 45 04 00 00 00 01 B3 7E");
const CLOSED_2: Part = (2, "7E 02 45 00 00 B8 7E");
/// Get calibration at 2, and its answer.
const GET_2: Part = (1, "7E 02 45 00 B8 7E");
const GOT_2: Part = (2, "7E 02 45 00 04 00 00 00 01 B3 7E");
/// 002's device restart at 2, which 01's table has not: 11 as a request.
const RESTART_2: Part = (1, "7E 02 D3 00 2A 7E");
const MARK: Part = (3, "");

/// A place that nothing is laid in.
const UNTOUCHED: Entry = Entry { kind: 0xC3, bus: 0x5A, address: 0xC3, padding: 0x5A, left: 0x5AC3 };

fn file(parts: &[Part]) -> Vec<u8> {
    let records: Vec<(u8, Vec<u8>)> = parts.iter().map(|(kind, body)| (*kind, hex(body))).collect();
    file_of(&records)
}

/// The answer and every place of the room, beside the entries that are expected (address and polls left) or a refusal.
fn expect(section: &mut Section, what: &str, file: &[u8], lease: u32, room: usize, expected: Result<&[(u8, u16)], u8>) {
    for (name, on) in both() {
        let what = format!("{name}, {what}, lease {lease}, room for {room}");
        let (lent, mut entries) = (file.to_vec(), vec![UNTOUCHED; room]);
        let found = on.log_replay(&lent, lease, &mut entries);
        section.expect(&what, listed(expected.map(|list| list.len())), found);
        let list = expected.unwrap_or(&[]);
        let laid = list.iter().map(|(address, left)| {
            // Calibrations on the serial bus: "I2C entries are not in the log and stay empty."
            Entry { kind: CALIBRATION, bus: SERIAL, address: *address, padding: 0, left: *left }
        });
        let all: Vec<Entry> = laid.chain(vec![UNTOUCHED; room - list.len()]).collect();
        section.expect(&format!("{what}: the entries"), all, entries);
        section.expect(&format!("{what}: the file"), Hex(file.to_vec()), Hex(lent));
    }
}

// ---- What is replayed

/// A question and an answer as the bytes of a whole file: 10 and 7 bytes, each with its trailer, 2 records of 23 bytes.
const WHOLE: &str = "7E 02 46 04 00 00 00 01 B2 7E 01 00 0A 7E 02 46 00 00 B7 7E 02 00 07 00 00 00 02 00 00 00 17";

fn whole_file(section: &mut Section) {
    expect(section, "a question and an answer", &hex(WHOLE), 9, 4, Ok(&[(2, 9)]));
    expect(section, "the empty log", &hex("00*8"), 9, 4, Ok(&[]));
    expect(section, "02's example of (v)", &hex("7E 00 45 00 BA 7E 01 00 06 00 00 00 01 00 00 00 09"), 9, 4, Ok(&[]));
    for (name, on) in both() {
        let built = file(&[OPEN_2, OPENED_2]);
        section.expect(&format!("{name}: the same file"), Hex(hex(WHOLE)), Hex(built.clone()));
        section.expect(&format!("{name}: its records"), 2, on.log_check(&built).count);
    }
}

/// What is said; records, oldest first; the entries at the end with a lease of 3.
#[rustfmt::skip]
const REPLAYED: &[(&str, &[Part], &[(u8, u16)])] = &[
    // "The replay takes the records oldest first"
    ("opened, then closed", &[OPEN_2, OPENED_2, CLOSE_2, CLOSED_2], &[]),
    ("closed, then opened", &[CLOSE_2, CLOSED_2, OPEN_2, OPENED_2], &[(2, 3)]),
    ("an answer before its question", &[OPENED_2, OPEN_2], &[]),
    // "feeds kind 1 to a request receiver and kind 2 to a reply receiver"
    ("on the other sides", &[(2, OPEN_2.1), (1, OPENED_2.1)], &[]),
    ("all on the request side", &[OPEN_2, (1, OPENED_2.1)], &[]),
    ("all on the reply side", &[(2, OPEN_2.1), OPENED_2], &[]),
    ("a record of nothing on each side", &[(1, ""), OPEN_2, (2, ""), OPENED_2, (1, ""), (2, "")], &[(2, 3)]),
    // "its side's joined bytes": R3, a record's border means nothing to a receiver
    ("a question in three records", &[(1, "7E 02 46 04 00"), (1, "00 00 01"), (1, "B2 7E"), OPENED_2], &[(2, 3)]),
    ("an answer in two records", &[OPEN_2, (2, "7E 02 46"), (2, "00 00 B7 7E")], &[(2, 3)]),
    ("a record of nothing between their parts",
     &[(1, "7E 02 46 04 00"), (1, ""), (1, "00 00 01 B2 7E"), (2, "7E 02 46"), (2, ""), (2, "00 00 B7 7E")], &[(2, 3)]),
    ("an answer's bytes between a question's",
     &[(2, "7E 02 46"), (1, "7E 02 46 04"), (2, "00 00"), (1, "00 00 00 01 B2 7E"), (2, "B7 7E")], &[(2, 3)]),
    ("an answer that ends before its question",
     &[(1, "7E 02 46 04 00 00 00 01 B2"), OPENED_2, (1, "7E")], &[]),
    ("an escape cut in two", &[(1, "7E 7D"), (1, "31 46 04 00 00 00 01 A3 7E"), (2, "7E 7D"), (2, "31 46 00 00 A8 7E")],
     &[(0x11, 3)]),
    ("two questions in a record, and both answers",
     &[(1, "7E 02 46 04 00 00 00 01 B2 7E 7E 05 46 04 00 00 00 01 AF 7E"), OPENED_2, OPENED_5], &[(5, 3)]),
    ("with one 7E between them",
     &[(1, "7E 02 46 04 00 00 00 01 B2 7E 05 46 04 00 00 00 01 AF 7E"), OPENED_2, OPENED_5], &[(5, 3)]),
    ("two answers in a record", &[OPEN_2, MARK, (2, "7E 02 46 20 00 97 7E 7E 02 46 00 00 B7 7E")], &[(2, 3)]),
    ("with one 7E between them, the second an error",
     &[OPEN_2, (2, "7E 02 46 00 00 B7 7E 02 46 20 00 97 7E")], &[(2, 3)]),
    // "gives a mark to both for kind 3"
    ("a question cut off by a mark", &[(1, "7E 02 46 04 00"), MARK, (1, "00 00 01 B2 7E"), OPENED_2], &[]),
    ("an answer cut off by a mark", &[OPEN_2, (2, "7E 02 46"), MARK, (2, "00 00 B7 7E")], &[]),
    ("an answer that begins with the last 7E", &[OPEN_2, OPENED_5, (2, "02 46 00 00 B7 7E")], &[(2, 3)]),
    ("which a mark makes noise", &[OPEN_2, OPENED_5, MARK, (2, "02 46 00 00 B7 7E")], &[]),
    ("a second answer that a mark makes noise", &[OPEN_2, OPENED_2, MARK, (2, "02 46 00 00 B7 7E")], &[(2, 2)]),
    ("a question that begins with the last 7E",
     &[OPEN_2, (1, "05 46 04 00 00 00 01 AF 7E"), OPENED_5], &[(5, 3)]),
    ("which a mark makes noise", &[OPEN_2, MARK, (1, "05 46 04 00 00 00 01 AF 7E"), OPENED_5], &[]),
    ("which a mark makes noise, and the older one stands",
     &[OPEN_2, MARK, (1, "05 46 04 00 00 00 01 AF 7E"), OPENED_2], &[(2, 3)]),
    ("noise on both sides", &[(1, "00 11 7D"), OPEN_2, (2, "13 41"), OPENED_2, (1, "41"), (2, "41")], &[(2, 3)]),
    // "A reply frame is read against the latest request frame"
    ("another question came between", &[OPEN_2, OPEN_5, OPENED_2], &[]),
    ("the latest of two", &[OPEN_2, OPEN_5, OPENED_5], &[(5, 3)]),
    ("a get came between", &[OPEN_2, GET_2, OPENED_2], &[]),
    // "(with none, ..": no request before the answer
    ("no question", &[OPENED_2], &[]),
    ("no question, and a mark", &[OPENED_2, MARK, OPENED_5], &[]),
    // ".. or one refused as a request, it is skipped)": R1, a frame of 10 to 13 displaces the latest
    ("11, a restart between", &[OPEN_2, RESTART_2, OPENED_2], &[]),
    ("11, its own answer", &[OPEN_2, OPENED_2, MARK, RESTART_2, (2, "7E 02 D3 00 00 2A 7E")], &[(2, 2)]),
    ("11, 002's worked frame between", &[OPEN_2, (1, "7E 02 43 04 64 A0 22 FC 94 7E"), OPENED_2], &[]),
    ("12, a volatile calibration without its number between", &[OPEN_2, (1, "7E 02 46 00 B7 7E"), OPENED_2], &[]),
    ("13, an infinite setpoint between", &[OPEN_2, (1, "7E 02 00 05 01 7F 80 00 00 F8 7E"), OPENED_2], &[]),
    ("10, an address for all between", &[OPEN_2, (1, "7E FF 90 01 05 6A 7E"), OPENED_2], &[]),
    ("the question again behind it", &[OPEN_2, RESTART_2, OPENED_2, OPEN_2, OPENED_2], &[(2, 3)]),
    // R1, a refused stretch is no frame: 3 to 9 leave the latest as it was
    ("3, a wrong escape between", &[OPEN_2, (1, "7E 05 46 7D 41 7E"), OPENED_2], &[(2, 3)]),
    ("4, a bare 11 between", &[OPEN_2, (1, "7E 05 11 46 7E"), OPENED_2], &[(2, 3)]),
    ("5, 260 bytes between", &[OPEN_2, (1, "7E 00*260 7E"), OPENED_2], &[(2, 3)]),
    ("6, three bytes between", &[OPEN_2, (1, "7E 05 46 04 7E"), OPENED_2], &[(2, 3)]),
    ("7, another L between", &[OPEN_2, (1, "7E 05 46 03 00 00 00 01 B0 7E"), OPENED_2], &[(2, 3)]),
    ("8, a wrong checksum between", &[OPEN_2, (1, "7E 05 46 04 00 00 00 01 AE 7E"), OPENED_2], &[(2, 3)]),
    ("9, one cut off between", &[OPEN_2, (1, "7E 05 46 04"), MARK, OPENED_2], &[(2, 3)]),
    ("a restart with a wrong checksum", &[OPEN_2, (1, "7E 02 D3 00 2B 7E"), OPENED_2], &[(2, 3)]),
    ("one not ended yet", &[OPEN_2, (1, "7E 05 46 04 00 00"), OPENED_2], &[(2, 3)]),
    ("a refused stretch does not bring an older one back",
     &[OPEN_2, RESTART_2, (1, "7E 05 46 04 7E"), OPENED_2], &[]),
    // R2, a request is not used up, and a mark does not forget it
    ("a second answer", &[OPEN_2, OPENED_2, MARK, OPENED_2], &[(2, 3)]),
    ("a mark before the answer", &[OPEN_2, MARK, MARK, OPENED_2], &[(2, 3)]),
    ("a refused stretch of the reply side before the answer", &[OPEN_2, (2, "7E 02 46 00 00 B6 7E"), OPENED_2], &[(2, 3)]),
    ("an error, then the answer", &[OPEN_2, (2, "7E 02 46 20 00 97 7E"), OPENED_2], &[(2, 3)]),
    ("an answer from elsewhere, then its own", &[OPEN_2, OPENED_5, OPENED_2], &[(2, 3)]),
    ("a second answer to a closing", &[OPEN_2, OPENED_2, CLOSE_2, CLOSED_2, CLOSED_2], &[]),
    // "what is accepted goes to an empty board of its own": as in (i), 46 opens
    ("addresses 0 and 254, listed in order",
     &[(1, "7E FE 46 04 00 00 00 01 B6 7E"), (2, "7E FE 46 00 00 BB 7E"),
       (1, "7E 00 46 04 00 00 00 01 B4 7E"), (2, "7E 00 46 00 00 B9 7E")], &[(0, 3), (254, 3)]),
    ("address 7E", &[(1, "7E 7D 5E 46 04 00 00 00 01 36 7E"), (2, "7E 7D 5E 46 00 00 3B 7E")], &[(0x7E, 3)]),
    ("two addresses, the higher first", &[OPEN_5, OPENED_5, OPEN_2, OPENED_2], &[(2, 3), (5, 3)]),
    ("bit 7 of the state", &[OPEN_2, (2, "7E 02 46 80 00 37 7E")], &[(2, 3)]),
    ("another calibration", &[(1, "7E 02 46 04 A7 B4 7D 5E 24 B6 7E"), OPENED_2], &[(2, 3)]),
    // 15 and 14 are not accepted
    ("01, example 8: error 32", &[(1, "7E 00 46 04 00 00 00 01 B4 7E"), (2, "7E 00 46 20 00 99 7E")], &[]),
    ("an error with bit 7", &[OPEN_2, (2, "7E 02 46 A0 00 17 7E")], &[]),
    ("an answer with data", &[OPEN_2, (2, "7E 02 46 00 01 00 B6 7E")], &[]),
    ("an answer from another address", &[OPEN_2, OPENED_5], &[]),
    ("an answer to another command", &[OPEN_2, CLOSED_2], &[]),
    ("an answer with a wrong checksum", &[OPEN_2, (2, "7E 02 46 00 00 B6 7E")], &[]),
    // R6, to 255 there is no answer
    ("to all", &[(1, "7E FF 46 04 00 00 00 01 B5 7E"), (2, "7E FF 46 00 00 BA 7E"), OPENED_2], &[]),
    // as in (i), an accepted 45 set closes; a get does not, an address set (90) moves none, closing what isn't there
    // does nothing
    ("a closing that is not accepted", &[OPEN_2, OPENED_2, CLOSE_2, (2, "7E 02 45 20 00 98 7E")], &[(2, 3)]),
    ("a closing without an answer", &[OPEN_2, OPENED_2, CLOSE_2], &[(2, 3)]),
    ("a get", &[OPEN_2, OPENED_2, GET_2, GOT_2], &[(2, 3)]),
    ("a get's answer to a set", &[OPEN_2, OPENED_2, CLOSE_2, GOT_2], &[(2, 3)]),
    ("closed elsewhere", &[OPEN_5, OPENED_5, CLOSE_2, CLOSED_2], &[(5, 3)]),
    ("nothing to close", &[CLOSE_2, CLOSED_2], &[]),
    ("an address set", &[OPEN_2, OPENED_2, (1, "7E 02 90 01 06 66 7E"), (2, "7E 02 90 00 00 6D 7E")], &[(2, 3)]),
    ("an address set, and a closing at the new one",
     &[OPEN_2, OPENED_2, (1, "7E 02 90 01 06 66 7E"), (2, "7E 02 90 00 00 6D 7E"),
       (1, "7E 06 45 04 00 00 00 01 AF 7E"), (2, "7E 06 45 00 00 B4 7E")], &[(2, 3)]),
    // R6, a restart of the node is not in the log's commands
    ("a restart", &[OPEN_2, OPENED_2, RESTART_2, (2, "7E 02 D3 00 00 2A 7E")], &[(2, 3)]),
    // "Polls are one per silence mark."
    ("a mark", &[OPEN_2, OPENED_2, MARK], &[(2, 2)]),
    ("a mark that cuts off a stretch of each side", &[OPEN_2, OPENED_2, (1, "7E 05"), (2, "05"), MARK], &[(2, 2)]),
    ("two marks, and records between", &[OPEN_2, OPENED_2, MARK, GET_2, GOT_2, (1, ""), (2, ""), MARK], &[(2, 1)]),
    ("due", &[OPEN_2, OPENED_2, MARK, MARK, MARK], &[(2, 0)]),
    ("due, and it stays so", &[OPEN_2, OPENED_2, MARK, MARK, MARK, MARK, MARK], &[(2, 0)]),
    ("a due one closed", &[OPEN_2, OPENED_2, MARK, MARK, MARK, CLOSE_2, CLOSED_2], &[]),
    ("a due one renewed", &[OPEN_2, OPENED_2, MARK, MARK, MARK, MARK, OPENED_2], &[(2, 3)]),
    // R5, at its place in the order
    ("marks before the opening", &[MARK, MARK, OPEN_2, MARK, OPENED_2], &[(2, 3)]),
    ("one opened before the marks and one after",
     &[OPEN_5, OPENED_5, MARK, MARK, OPEN_2, OPENED_2], &[(2, 3), (5, 1)]),
    ("renewed between two marks", &[OPEN_2, OPENED_2, MARK, OPEN_2, OPENED_2, MARK], &[(2, 2)]),
    ("opened again after it was closed",
     &[OPEN_2, OPENED_2, MARK, CLOSE_2, CLOSED_2, MARK, OPEN_2, OPENED_2], &[(2, 3)]),
];

fn replayed(section: &mut Section) {
    for (what, parts, entries) in REPLAYED {
        expect(section, what, &file(parts), 3, entries.len() + 2, Ok(entries));
    }
}

// ---- Leases

/// "with one lease that the caller names (12, as in (i), before the log's check)"
fn leases(section: &mut Section) {
    let opened = file(&[OPEN_2, OPENED_2]);
    let polled = file(&[OPEN_2, OPENED_2, MARK]);
    for (lease, left) in [(1, 1), (2, 2), (255, 255), (256, 256), (65_534, 65_534), (65_535, 65_535)] {
        expect(section, "opened", &opened, lease, 3, Ok(&[(2, left)]));
        expect(section, "opened, and a mark", &polled, lease, 3, Ok(&[(2, left - 1)]));
    }
    for lease in [0, 65_536, 65_537, 65_539, 131_072, 0x8000_0001, 0xFFFF_0001, 0xFFFF_FFFE, 0xFFFF_FFFF] {
        expect(section, "opened", &opened, lease, 3, Err(12));
        expect(section, "the empty log", &hex("00*8"), lease, 3, Err(12));
    }
    // As many marks as a log has room for behind the opening: 23 bytes, and 21,659 marks of 3.
    let mut parts = vec![OPEN_2, OPENED_2];
    parts.resize(2 + 21_659, MARK);
    let longest = file(&parts);
    section.expect("the longest log", 65_008, longest.len());
    for (lease, left) in [(1, 0), (21_658, 0), (21_659, 0), (21_660, 1), (65_535, 43_876)] {
        expect(section, "21,659 marks", &longest, lease, 1, Ok(&[(2, left)]));
    }
}

// ---- All places held

/// Volatile or set calibration at an address from 80 to A0 hex, and its answer: no byte of these frames is stuffed. The
/// checksums at address 0 are B4 and B9, or B5 and BA, and one less with each address.
fn exchange(address: u8, command: u8) -> [(u8, Vec<u8>); 2] {
    let (asked, answered) = if command == 0x46 { (0xB4, 0xB9) } else { (0xB5, 0xBA) };
    [
        (1, vec![0x7E, address, command, 0x04, 0x00, 0x00, 0x00, 0x01, asked - address, 0x7E]),
        (2, vec![0x7E, address, command, 0x00, 0x00, answered - address, 0x7E]),
    ]
}

fn opened(addresses: impl Iterator<Item = u8>) -> Vec<(u8, Vec<u8>)> {
    addresses.flat_map(|address| exchange(address, 0x46)).collect()
}

/// "the entries at the log's end are listed as in (i), or 19 instead if an opening met it"
fn full_board(section: &mut Section) {
    let all_of = |first: u8, last: u8| -> Vec<(u8, u16)> { (first..=last).map(|address| (address, 7)).collect() };
    let closed = |address: u8| exchange(address, 0x45).to_vec();
    let with = |more: Vec<(u8, Vec<u8>)>| file_of(&[opened(0x80..=0x9F), more].concat());
    // 32 entries, opened upwards and downwards, in room for them, for one fewer and for more.
    for full in [opened(0x80..=0x9F), opened((0x80..=0x9F).rev())] {
        for room in [32, 33, 40] {
            expect(section, "32 entries", &file_of(&full), 7, room, Ok(&all_of(0x80, 0x9F)));
        }
        for room in [31, 30, 1, 0] {
            expect(section, "32 entries", &file_of(&full), 7, room, Err(1));
        }
    }
    let of_31 = file_of(&opened(0x80..=0x9E));
    expect(section, "31 entries", &of_31, 7, 31, Ok(&all_of(0x80, 0x9E)));
    expect(section, "31 entries", &of_31, 7, 30, Err(1));
    // A 33rd.
    for room in [0, 1, 31, 32, 33, 40] {
        expect(section, "33 entries", &with(opened(0xA0..=0xA0)), 7, room, Err(19));
    }
    // "instead if an opening met it": a place that is freed behind it changes nothing
    for freed in [0x80, 0x90, 0x9F] {
        let behind = [opened(0xA0..=0xA0), closed(freed)].concat();
        expect(section, "a 33rd, then one closed", &with(behind), 7, 40, Err(19));
        let again = [opened(0xA0..=0xA0), closed(freed), opened(0xA0..=0xA0)].concat();
        expect(section, "a 33rd, then one closed, then the 33rd", &with(again), 7, 40, Err(19));
        let before = [closed(freed), opened(0xA0..=0xA0)].concat();
        let mut entries = all_of(0x80, 0xA0);
        entries.retain(|(address, _)| *address != freed);
        expect(section, "one closed, then a 33rd", &with(before), 7, 32, Ok(&entries));
    }
    let every_one: Vec<(u8, Vec<u8>)> = (0x80..=0x9F).flat_map(|address| exchange(address, 0x45)).collect();
    let emptied = [opened(0xA0..=0xA0), every_one.clone()].concat();
    expect(section, "a 33rd, then all closed", &with(emptied), 7, 0, Err(19));
    expect(section, "all closed", &with(every_one), 7, 0, Ok(&[]));
    // No new entry is wanted by what renews one, closes what isn't there, or is not accepted.
    let not_new = [opened(0x80..=0x9F), closed(0xA0), exchange(0xA0, 0x46)[..1].to_vec()].concat();
    expect(section, "32 entries renewed", &with(not_new), 7, 32, Ok(&all_of(0x80, 0x9F)));
    // Due entries hold their places, and a poll takes from all of them.
    let due = [vec![(3, Vec::new()); 9], opened(0xA0..=0xA0)].concat();
    expect(section, "32 due entries and a 33rd", &with(due), 7, 40, Err(19));
    let polled: Vec<(u8, u16)> = (0x80..=0x9F).map(|address| (address, 5)).collect();
    expect(section, "32 entries polled twice", &with(vec![(3, Vec::new()); 2]), 7, 32, Ok(&polled));
}

// ---- Refusals

/// A log of 33 openings; the same with no place for its entries is 19 as well.
fn overfull() -> Vec<u8> {
    file_of(&opened(0x80..=0xA0))
}

/// The same bytes before the last eight, with one more before them and a total and a count as they are told.
fn told_otherwise(file: &[u8], front: &str, count: u32, total_off: u32) -> Vec<u8> {
    let before = [hex(front), file[..file.len() - 8].to_vec()].concat();
    let total = before.len() as u32 + total_off;
    [before, count.to_be_bytes().to_vec(), total.to_be_bytes().to_vec()].concat()
}

/// 12, then the check's, then 19, then 1: each with all that come behind it wrong too.
fn order(section: &mut Section) {
    let full = overfull();
    let whole = hex(WHOLE);
    // 66 records in the one, 2 in the other.
    for (log, count) in [(&full, 66), (&whole, 2)] {
        let wrong = [
            (20, told_otherwise(log, "", count, 1)),
            (20, told_otherwise(log, "", 0, 1)),
            (20, told_otherwise(log, "04 00 00", count, 65_536)),
            (20, log[log.len() - 7..].to_vec()),
            (20, Vec::new()),
            (21, told_otherwise(log, "01", count, 0)),
            (21, told_otherwise(log, "01 00", 0, 0)),
            (21, told_otherwise(log, "01 00 01", 0, 0)),
            (22, told_otherwise(log, "04 00 00", count + 1, 0)),
            (22, told_otherwise(log, "00 03 00 01", 0, 0)),
            (23, told_otherwise(log, "", count + 1, 0)),
            (23, told_otherwise(log, "", 0, 0)),
            (23, told_otherwise(log, "03 00 00", count, 0)),
        ];
        for (refusal, file) in &wrong {
            for room in [0, 1, 32, 40] {
                for lease in [1, 65_535] {
                    expect(section, "a log that fails its check", file, lease, room, Err(*refusal));
                }
                for lease in [0, 65_536, u32::MAX] {
                    expect(section, "and a lease out of range", file, lease, room, Err(12));
                }
            }
        }
        for room in [0, 1, 32, 40] {
            for lease in [0, 65_536, u32::MAX] {
                expect(section, "a good log and a lease out of range", log, lease, room, Err(12));
            }
        }
    }
    for room in [0, 31] {
        expect(section, "19 before 1", &full, 1, room, Err(19));
    }
    expect(section, "1", &whole, 1, 0, Err(1));
    expect(section, "1, and the lease ran out", &file(&[OPEN_2, OPENED_2, MARK, MARK]), 1, 0, Err(1));
    // Where nothing is to be listed no place is needed.
    expect(section, "no entry", &hex("00*8"), 1, 0, Ok(&[]));
    expect(section, "an entry closed", &file(&[OPEN_2, OPENED_2, CLOSE_2, CLOSED_2]), 1, 0, Ok(&[]));
}

/// Rooms of every size for 0 to 3 entries: as many places as entries are enough, one fewer is 1, and those past the
/// entries stay as they are.
fn rooms(section: &mut Section) {
    let lists: [(&[u8], &[(u8, u16)]); 4] = [
        (&[], &[]),
        (&[0x90], &[(0x90, 6)]),
        (&[0x9A, 0x90], &[(0x90, 6), (0x9A, 6)]),
        (&[0x9A, 0x80, 0x90], &[(0x80, 6), (0x90, 6), (0x9A, 6)]),
    ];
    for (addresses, entries) in lists {
        let parts = [opened(addresses.iter().copied()), vec![(3, Vec::new())]].concat();
        for room in 0..=40 {
            let expected = if room < entries.len() { Err(1) } else { Ok(entries) };
            expect(section, "entries", &file_of(&parts), 7, room, expected);
        }
    }
}

pub fn run(report: &mut Report) {
    report.section("vectors: replay, a whole file", whole_file);
    report.section("vectors: replay, what is replayed", replayed);
    report.section("vectors: replay, leases", leases);
    report.section("vectors: replay, all places held", full_board);
    report.section("vectors: replay, the order of refusals", order);
    report.section("vectors: replay, rooms", rooms);
}
