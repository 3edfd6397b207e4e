//! Random traffic as a log has it: questions and answers, good and damaged, cut into records at any byte, bent towards
//! the places where implementations differ.

use crate::generate;
use crate::harness::Random;
use crate::log::*;
use crate::log_cases::joined;
use crate::reference::{body, request_frame, wire, Kind};

/// Bytes of one side, or a mark: a record, before it is cut.
pub type Part = Record<Vec<u8>>;

pub const MARK: Part = (SILENCE, Vec::new());

/// Get and set calibration, and volatile calibration.
pub const CALIBRATION: u8 = 0x45;
pub const VOLATILE: u8 = 0x46;
/// 002's device restart, which is not in 01's table.
pub const RESTART: u8 = 0xD3;

// ---- Frames

/// A request-side frame of any command and data.
pub fn ask(address: u8, command: u8, data: &[u8]) -> Part {
    let head = [address, command, data.len() as u8];
    (REQUEST_SIDE, wire(&body(&[&head[..], data].concat())))
}

/// A reply-side one, with any state.
pub fn answer(address: u8, command: u8, state: u8, data: &[u8]) -> Part {
    let head = [address, command, state, data.len() as u8];
    (REPLY_SIDE, wire(&body(&[&head[..], data].concat())))
}

/// A request with a calibration's number, and an answer that is accepted: 46 opens an entry, 45 closes it.
pub fn exchange(address: u8, command: u8) -> [Part; 2] {
    [ask(address, command, &[0, 0, 0, 1]), answer(address, command, 0, &[])]
}

// ---- Questions and answers

/// An address of the wire: often an end of the range, one that is stuffed, or 255.
pub fn address(random: &mut Random) -> u8 {
    match random.below(8) {
        0 => random.pick(&[0, 1, 253, 254, 255]),
        1 => generate::wire_byte(random),
        _ => random.byte(),
    }
}

/// A calibration's number, at times of bytes that are stuffed.
fn number(random: &mut Random) -> [u8; 4] {
    match random.below(4) {
        0 => [0; 4].map(|_: u8| generate::wire_byte(random)),
        _ => [0, 0, 0, random.below(4) as u8],
    }
}

/// Mostly accepted, often with bit 7; else an error, another address or command, data, or data beside an error.
fn any_answer(random: &mut Random, address: u8, command: u8) -> Part {
    match random.below(16) {
        0 | 1 => answer(address, command, random.between(1, 127) as u8 | random.pick(&[0, 0x80]), &[]),
        2 => answer(self::address(random), command, 0, &[]),
        3 => answer(address, random.pick(&[CALIBRATION, VOLATILE, 0x90, RESTART]), 0, &[]),
        4 => {
            let (data, n) = (number(random), random.between(1, 4));
            answer(address, command, random.pick(&[0, 0, 0x20]), &data[..n])
        }
        5 | 6 => answer(address, command, 0x80, &[]),
        _ => answer(address, command, 0, &[]),
    }
}

/// A good frame that is mostly refused as a request: 11, 12, 13 or 10.
fn refused_ask(random: &mut Random, address: u8) -> Part {
    match random.below(6) {
        0 | 1 => ask(address, RESTART, &[]),
        2 => ask(address, VOLATILE, &[0, 0, 0, 0, 1][..random.pick(&[0, 1, 3, 5])]),
        3 => ask(address, 0x00, &[0x01, random.pick(&[0x7F, 0xFF]), random.pick(&[0x80, 0xC0]), 0, 0]),
        4 => ask(255, 0x90, &[random.below(255) as u8]),
        _ => {
            let (data, n) = (number(random), random.below(5));
            ask(address, random.byte(), &data[..n])
        }
    }
}

/// A request of 01's table and an answer that is near to a good one.
fn typed(random: &mut Random, address: u8) -> [Part; 2] {
    let request = random.below(21) as u8;
    let value = generate::value_for(random, generate::request_field(request));
    let asked = request_frame(address, request, value).unwrap_or_default();
    let answered = wire(&generate::near_reply_body(random, address, request));
    [(REQUEST_SIDE, asked), (REPLY_SIDE, answered)]
}

/// A question and its answer, mostly of the two commands that concern an entry.
fn talk(random: &mut Random, address: u8) -> Vec<Part> {
    let command = random.pick(&[VOLATILE, VOLATILE, CALIBRATION]);
    match random.below(16) {
        0 => vec![ask(address, CALIBRATION, &[]), answer(address, CALIBRATION, 0, &number(random))],
        1 => typed(random, address).to_vec(),
        // Answers that would be read against an older request.
        2 | 3 => vec![refused_ask(random, address), any_answer(random, address, command)],
        4 => exchange(255, command).to_vec(),
        5 => vec![any_answer(random, address, command)],
        6 => vec![ask(address, command, &number(random))],
        _ => vec![ask(address, command, &number(random)), any_answer(random, address, command)],
    }
}

// ---- The line

/// Whom the traffic is with; one part of so many is spoilt, and one of so many has a mark behind it.
pub struct Line {
    pub addresses: Vec<u8>,
    pub spoilt: usize,
    pub marks: usize,
}

impl Line {
    pub fn to(random: &mut Random, several: usize) -> Line {
        let addresses = (0..several).map(|_| address(random)).collect();
        Line { addresses, spoilt: random.pick(&[4, 12, 1_000]), marks: random.pick(&[2, 5, 12, 1_000]) }
    }

    /// What comes over the line of these parts.
    fn carry(&self, random: &mut Random, parts: impl IntoIterator<Item = Part>) -> Vec<Part> {
        let mut all = Vec::new();
        for part in parts {
            if random.one_in(self.spoilt) {
                all.extend(spoilt(random, part));
            } else {
                all.push(part);
            }
            if random.one_in(self.marks) {
                all.push(MARK);
            }
        }
        all
    }
}

/// Lost, twice, with noise before it, cut off by a mark, on the other side, or with a byte changed.
fn spoilt(random: &mut Random, (kind, bytes): Part) -> Vec<Part> {
    match random.below(10) {
        0 => Vec::new(),
        1 | 2 => vec![(kind, bytes.clone()), (kind, bytes)],
        3 => {
            let n = random.below(6);
            vec![(kind, generate::wire_bytes(random, n)), (kind, bytes)]
        }
        4 | 5 => {
            let (before, after) = bytes.split_at(random.below(bytes.len() + 1));
            vec![(kind, before.to_vec()), MARK, (kind, after.to_vec())]
        }
        6 => vec![(REQUEST_SIDE + REPLY_SIDE - kind, bytes)],
        _ => vec![(kind, generate::changed(random, &bytes))],
    }
}

pub fn traffic(random: &mut Random, line: &Line, talks: usize) -> Vec<Part> {
    let mut parts = Vec::new();
    for _ in 0..talks {
        let address = random.pick(&line.addresses);
        let talk = talk(random, address);
        parts.extend(line.carry(random, talk));
    }
    // An answer that came late, or before its question.
    if parts.len() > 1 && random.one_in(3) {
        let at = random.below(parts.len() - 1);
        parts.swap(at, at + 1);
    }
    parts
}

// ---- Records

/// Records of at most so many bytes, some of none, and those of the two sides in another order here and there: each
/// side and the marks stay in theirs.
fn in_pieces(random: &mut Random, parts: &[Part], widest: usize) -> Vec<Part> {
    let mut all: Vec<Part> = Vec::new();
    for (kind, bytes) in parts {
        let mut rest = &bytes[..];
        while !rest.is_empty() {
            let (piece, after) = rest.split_at(random.between(0, widest).min(rest.len()));
            all.push((*kind, piece.to_vec()));
            rest = after;
        }
        if *kind == SILENCE {
            all.push(MARK);
        }
    }
    let swaps = random.pick(&[2, 6, 1_000]);
    for at in 1..all.len() {
        let of_two_sides = all[at].0 + all[at - 1].0 == REQUEST_SIDE + REPLY_SIDE;
        if of_two_sides && random.one_in(swaps) {
            all.swap(at, at - 1);
        }
    }
    all
}

/// The same bytes in records: one for each part, or cut otherwise.
pub fn cut(random: &mut Random, parts: Vec<Part>) -> Vec<Part> {
    match random.below(5) {
        0 => joined(&parts),
        1 => {
            let widest = random.pick(&[1, 3, 9, 30]);
            in_pieces(random, &parts, widest)
        }
        _ => parts,
    }
}

// ---- Logs

/// A few talks with a few addresses.
pub fn records(random: &mut Random) -> Vec<Part> {
    let (several, talks) = random.pick(&[(1, 2), (1, 3), (2, 2), (2, 4), (3, 5), (5, 8)]);
    let line = Line::to(random, several);
    let talks = random.between(1, talks);
    let parts = traffic(random, &line, talks);
    cut(random, parts)
}

/// So many different addresses below 255 in some order.
pub fn different(random: &mut Random, n: usize) -> Vec<u8> {
    // Steps that have no divisor in common with 255.
    let (first, step) = (random.below(255), random.pick(&[1, 2, 7, 22, 127, 254]));
    (0..n).map(|at| ((first + at * step) % 255) as u8).collect()
}

/// Entries for around 32 addresses, some renewed, some closed before others are opened and some after.
pub fn crowded(random: &mut Random) -> Vec<Part> {
    let n = random.between(28, 40);
    let addresses = different(random, n);
    let (others, line) = (random.pick(&[3, 6, 12, 1_000]), random.pick(&[(30, 1_000), (1_000, 8), (1_000, 1_000)]));
    let line = Line { addresses, spoilt: line.0, marks: line.1 };
    let mut parts = Vec::new();
    for at in 0..n {
        let opened = exchange(line.addresses[at], VOLATILE);
        parts.extend(line.carry(random, opened));
        if random.one_in(others) {
            let command = random.pick(&[VOLATILE, CALIBRATION, CALIBRATION]);
            let other = exchange(line.addresses[random.below(at + 1)], command);
            parts.extend(line.carry(random, other));
        }
    }
    for _ in 0..random.pick(&[0, 0, 1, 9, 40]) {
        parts.extend(exchange(random.pick(&line.addresses), CALIBRATION));
    }
    cut(random, parts)
}

/// An entry, streams of any items on both sides, and the entry's answer again.
pub fn any_items(random: &mut Random) -> Vec<Part> {
    let address = address(random);
    let mut parts = exchange(address, VOLATILE).to_vec();
    for _ in 0..random.between(1, 4) {
        let n = random.between(1, 2);
        parts.push(match random.below(5) {
            0 => MARK,
            1 | 2 => (REQUEST_SIDE, generate::stream(random, Kind::Request, n)),
            _ => (REPLY_SIDE, generate::stream(random, Kind::Reply, n)),
        });
    }
    parts.push(any_answer(random, address, VOLATILE));
    cut(random, parts)
}

/// Traffic whose records take so many bytes: the last of them makes up the rest, without a 7E.
pub fn of_total(random: &mut Random, total: usize, line: &Line) -> Vec<Part> {
    let (mut all, mut left) = (Vec::new(), total);
    loop {
        let parts = traffic(random, line, 20);
        for record in cut(random, parts) {
            let takes = TRAILER + record.1.len();
            if left < takes + TRAILER {
                all.push((REPLY_SIDE, generate::noise_bytes(random, left - TRAILER)));
                return all;
            }
            left -= takes;
            all.push(record);
        }
    }
}

/// Places for a list: mostly enough for any, else few, or any number of them.
pub fn room(random: &mut Random) -> usize {
    match random.below(8) {
        0 => random.below(35),
        1 | 2 => random.below(4),
        3 => random.between(31, 34),
        _ => 32,
    }
}
