//! Random inputs, bent towards the places where implementations differ.

use crate::cases::{Ask, Handed, Series, Spoilt, Step};
use crate::harness::{Hex, Random};
use crate::reference::*;

/// The bytes of the stuffing rule, and what follows a 7D in their place.
pub const STUFFING_BYTES: [u8; 8] = [0x7E, 0x7D, 0x11, 0x13, 0x5E, 0x5D, 0x31, 0x33];

/// A byte for the wire: often one of the stuffing rule, else an edge, else any.
pub fn wire_byte(random: &mut Random) -> u8 {
    match random.below(8) {
        0..=4 => random.pick(&STUFFING_BYTES),
        5 => random.pick(&[0x00, 0xFF, 0x80, 0x7F, 0x41, 0x20]),
        _ => random.byte(),
    }
}

pub fn wire_bytes(random: &mut Random, n: usize) -> Vec<u8> {
    (0..n).map(|_| wire_byte(random)).collect()
}

/// Bytes of one sort: all any, all special, or all one byte.
pub fn some_bytes(random: &mut Random, n: usize) -> Vec<u8> {
    match random.below(4) {
        0 => (0..n).map(|_| random.byte()).collect(),
        1 => wire_bytes(random, n),
        2 => vec![wire_byte(random); n],
        _ => vec![0; n],
    }
}

const EDGES: [u32; 30] = [
    0,
    1,
    2,
    126,
    127,
    128,
    253,
    254,
    255,
    256,
    257,
    1000,
    1001,
    65_534,
    65_535,
    65_536,
    65_537,
    0x0001_0000 + 9600,
    0x7F7F_FFFF,
    0x7F80_0000,
    0x7F80_0001,
    0x7FC0_0000,
    0x7FFF_FFFF,
    0x8000_0000,
    0xFF7F_FFFF,
    0xFF80_0000,
    0xFF80_0001,
    0xFFFF_FFFE,
    0xFFFF_FFFF,
    0x3F80_0000,
];

/// A value of a request or reply: an edge, a baud rate or its neighbour, special bytes, or any.
pub fn value(random: &mut Random) -> u32 {
    match random.below(8) {
        0..=2 => random.pick(&EDGES),
        3 => random.pick(&BAUD_RATES),
        4 => random.pick(&BAUD_RATES).wrapping_add(random.pick(&[1, u32::MAX, 0x1_0000, 0x100_0000])),
        5 => random.pick(&[0x7F80_0000, 0xFF80_0000]) | random.u32() >> random.between(9, 31),
        6 => u32::from_be_bytes([wire_byte(random), wire_byte(random), wire_byte(random), wire_byte(random)]),
        _ => random.u32() >> random.below(32),
    }
}

/// A value that the field takes, more often than not.
pub fn value_for(random: &mut Random, field: Field) -> u32 {
    if random.one_in(4) {
        return value(random);
    }
    match field {
        Field::Address => random.below(255) as u32,
        Field::Baud => random.pick(&BAUD_RATES),
        Field::Validity => random.pick(&[0, 0, 1, 1, 2, 0x2A, 0x7D, 0x7E, 0xFF, 0x100, 0x2A00_0000]),
        Field::ErrorCode => random.between(1, 127) as u32,
        Field::U16 => random.pick(&[0x7E7D, 0x1113, 0xFFFF, 0]) ^ random.below(2) as u32,
        Field::Float if random.one_in(2) => random.pick(&CODINGS),
        _ => value(random),
    }
}

pub fn address(random: &mut Random) -> u8 {
    match random.below(4) {
        0 => random.pick(&[0, 1, 253, 254, 255]),
        1 => 255,
        2 => wire_byte(random),
        _ => random.byte(),
    }
}

/// A request's number: mostly one of the table, else past it.
pub fn request(random: &mut Random) -> u8 {
    match random.below(12) {
        0 => random.between(21, 255) as u8,
        _ => random.below(21) as u8,
    }
}

pub fn request_field(request: u8) -> Field {
    ROWS.get(usize::from(request)).map_or(Field::U32, |row| row.request)
}

/// A room around what is needed, or none, or plenty.
pub fn room(random: &mut Random, needed: usize) -> usize {
    match random.below(8) {
        0 => needed.saturating_sub(1),
        1 => random.below(needed + 1),
        2 => 0,
        3 => needed + 1,
        4 | 5 => needed,
        _ => needed + random.below(40),
    }
}

// ---- Bodies

/// One change: a byte replaced, left out, added or doubled, two neighbours swapped, or the end cut off.
pub fn changed(random: &mut Random, bytes: &[u8]) -> Vec<u8> {
    let mut all = bytes.to_vec();
    if all.is_empty() {
        return vec![wire_byte(random)];
    }
    let at = random.below(all.len());
    match random.below(8) {
        0 => all[at] = random.byte(),
        1 => all[at] = wire_byte(random),
        2 => all[at] ^= 1 << random.below(8),
        3 => drop(all.remove(at)),
        4 => all.insert(at, wire_byte(random)),
        5 => all.insert(at, bytes[at]),
        6 => all.swap(at, (at + 1) % bytes.len()),
        _ => all.truncate(at),
    }
    all
}

/// A body's data length: that of the table, a neighbour of it, an extreme, or any.
fn data_length(random: &mut Random, tabled: usize) -> usize {
    match random.below(8) {
        0..=3 => tabled,
        4 => tabled + 1,
        5 => tabled.saturating_sub(1),
        6 => random.pick(&[0, 1, 2, 3, 4, 5, 6, 254, 255]),
        _ => random.below(256),
    }
}

/// The body of a typed request, or one near to it: another subcommand, another length.
pub fn near_request_body(random: &mut Random) -> Vec<u8> {
    let row = random.pick(&ROWS);
    let command = if random.one_in(12) { random.byte() } else { row.command };
    let mut data: Vec<u8> = row.sub.into_iter().collect();
    if random.one_in(12) && !data.is_empty() {
        data[0] = random.pick(&[0x00, 0x01, 0x02, 0x03, 0x10, 0x14, 0x11, 0x13]);
    }
    let carried = value_for(random, row.request).to_be_bytes();
    let width = match row.request {
        Field::Nothing => 0,
        Field::Address => 1,
        _ => 4,
    };
    data.extend_from_slice(&carried[4 - width..]);
    let length = data_length(random, data.len());
    while data.len() < length {
        data.push(wire_byte(random));
    }
    data.truncate(length);
    let mut whole = vec![address(random), command, length as u8];
    whole.extend(data);
    body(&whole)
}

/// A body that an asked device might send, or one near to it.
pub fn near_reply_body(random: &mut Random, asked: u8, request: u8) -> Vec<u8> {
    let any = random.pick(&ROWS);
    let row = if random.one_in(16) { any } else { *ROWS.get(usize::from(request)).unwrap_or(&any) };
    let from = if random.one_in(10) { address(random) } else { asked };
    let code = match random.below(6) {
        0 => random.between(1, 127) as u8,
        1 => random.pick(&[1, 0x11, 0x13, 0x7D, 0x7E, 0x7F, 32, 42]),
        _ => 0,
    };
    let state = code | if random.one_in(3) { 0x80 } else { 0 };
    let field = REPLIES[usize::from(row.reply)];
    let mut data = match field {
        Field::Nothing => Vec::new(),
        Field::Text => text(random),
        Field::Address | Field::Validity => value_for(random, field).to_be_bytes()[3..].to_vec(),
        Field::U16 => value_for(random, field).to_be_bytes()[2..].to_vec(),
        _ => value_for(random, field).to_be_bytes().to_vec(),
    };
    if code != 0 && !random.one_in(4) {
        data.clear();
    }
    if field != Field::Text || random.one_in(4) {
        let length = data_length(random, data.len());
        while data.len() < length {
            data.push(wire_byte(random));
        }
        data.truncate(length);
    }
    data.truncate(255);
    let mut whole = vec![from, row.command, state, data.len() as u8];
    whole.extend(data);
    body(&whole)
}

/// Text for a string reply: of any length, mostly without a 00, some with one or more.
pub fn text(random: &mut Random) -> Vec<u8> {
    let length = match random.below(8) {
        0 => 0,
        1 => random.between(252, 258),
        2 => random.pick(&[0x11, 0x13, 0x7D, 0x7E, 0x10, 0x12, 0x7C]),
        3 => random.below(300),
        _ => random.below(12),
    };
    let mut text = some_bytes(random, length);
    if !random.one_in(4) {
        text.iter_mut().filter(|byte| **byte == 0).for_each(|byte| *byte = b'A');
    } else if !text.is_empty() {
        let at = random.below(text.len());
        text[at] = 0;
    }
    text
}

/// A body of either kind with a good length and a good checksum, of any data.
pub fn good_body(random: &mut Random, kind: Kind, length: usize) -> Vec<u8> {
    let mut whole = vec![wire_byte(random), wire_byte(random)];
    if kind == Kind::Reply {
        whole.push(wire_byte(random));
    }
    whole.push(length as u8);
    whole.extend(some_bytes(random, length));
    body(&whole)
}

/// A body of an exact size, its length byte and checksum right as far as they can be.
pub fn sized_body(random: &mut Random, kind: Kind, size: usize) -> Vec<u8> {
    let header = if kind == Kind::Request { 3 } else { 4 };
    let mut whole = some_bytes(random, size);
    if size > header {
        whole[header - 1] = (size - header - 1) as u8;
    }
    if let Some(last) = whole.pop() {
        let sum = checksum(&whole);
        whole.push(if random.one_in(8) { last } else { sum });
    }
    whole
}

pub fn any_kind(random: &mut Random) -> Kind {
    random.pick(&[Kind::Request, Kind::Reply])
}

/// An unstuffed body for a reader: near to a good one, changed once, of an extreme size, or anything.
pub fn offered_body(random: &mut Random, kind: Kind, near: Vec<u8>) -> Vec<u8> {
    match random.below(10) {
        0..=5 => near,
        6 | 7 => changed(random, &near),
        8 => {
            let size = random.pick(&[3, 4, 5, 6, 258, 259, 260, 261, 262, 300]);
            sized_body(random, kind, size)
        }
        _ => {
            let size = random.below(12);
            wire_bytes(random, size)
        }
    }
}

// ---- Streams

/// A part of a stream, as raw bytes.
fn stream_part(random: &mut Random, kind: Kind) -> Vec<u8> {
    let length = match random.below(8) {
        0 => random.below(256),
        1 => random.pick(&[0x11, 0x13, 0x7D, 0x7E, 255]),
        _ => random.below(8),
    };
    let of = if random.one_in(8) { any_kind(random) } else { kind };
    match random.below(16) {
        0..=3 => wire(&good_body(random, of, length)),
        4..=6 => {
            let frame = wire(&good_body(random, of, length));
            changed(random, &frame)
        }
        7 => {
            let body = good_body(random, of, length);
            wire(&changed(random, &body))
        }
        8 => wire(&near_request_body(random)),
        9 => {
            let (asked, request) = (address(random), random.below(21) as u8);
            wire(&near_reply_body(random, asked, request))
        }
        10 | 11 => {
            let n = random.below(12);
            wire_bytes(random, n)
        }
        12 => vec![DELIMITER; random.between(1, 4)],
        13 => {
            let (n, mut part) = (random.below(10), vec![DELIMITER]);
            part.extend(some_bytes(random, n));
            part.push(DELIMITER);
            part
        }
        _ => long_part(random, of),
    }
}

/// A stretch around the largest sizes, often good, else with a fault or two at any place, also past the store.
fn long_part(random: &mut Random, kind: Kind) -> Vec<u8> {
    let size = match random.below(4) {
        0 => random.between(250, 270),
        1 => random.between(262, 600),
        _ => random.between(258, 261),
    };
    let body = sized_body(random, kind, size);
    let mut part = wire(&body);
    match random.below(5) {
        0 => part.insert(random.between(1, part.len() - 1), random.pick(&[0x11, 0x13])),
        1 => part.insert(random.between(1, part.len() - 1), ESCAPE),
        2 => {
            for _ in 0..2 {
                part.insert(random.between(1, part.len() - 1), random.pick(&[0x11, 0x13, ESCAPE]));
            }
        }
        3 => {
            let near_end = part.len() - 1 - random.below(12);
            part.insert(near_end, random.pick(&STUFFING_BYTES));
        }
        _ => {}
    }
    part
}

/// What refusals 3 and 4 are given for; the 7D alone is one where nothing follows it in its stretch.
pub const FAULTS: [(u8, &[u8]); 6] =
    [(3, &[ESCAPE, 0x41]), (3, &[ESCAPE, 0x11]), (3, &[ESCAPE, ESCAPE]), (3, &[ESCAPE]), (4, &[0x11]), (4, &[0x13])];

/// How many of the bytes before a fault are escaped.
#[derive(Clone, Copy, Debug)]
pub enum Escapes {
    None,
    First,
    Last,
    Some,
    All,
}

pub const ESCAPES: [Escapes; 5] = [Escapes::None, Escapes::First, Escapes::Last, Escapes::Some, Escapes::All];

/// An escape of the stuffing rule.
fn escape(random: &mut Random) -> [u8; 2] {
    [ESCAPE, random.pick(&[0x5E, 0x5D, 0x31, 0x33])]
}

/// Exactly so many raw bytes without a fault. Plain ones are often such as follow a 7D elsewhere.
fn faultless(random: &mut Random, length: usize, escapes: Escapes) -> Vec<u8> {
    const PLAIN: [u8; 8] = [0x00, 0x5E, 0x5D, 0x31, 0x33, 0x10, 0x7F, 0xFF];
    let plain = random.pick(&PLAIN);
    let mut bytes = Vec::with_capacity(length);
    while bytes.len() < length {
        let escaped = length - bytes.len() > 1
            && match escapes {
                Escapes::None => false,
                Escapes::First => bytes.is_empty(),
                Escapes::Last => length - bytes.len() == 2,
                Escapes::Some => random.one_in(3),
                Escapes::All => true,
            };
        if escaped {
            bytes.extend(escape(random));
        } else {
            bytes.push(plain);
        }
    }
    bytes
}

/// What may follow a fault up to the 7E and changes nothing: some bytes or none, and at times a second fault.
fn after_fault(random: &mut Random) -> Vec<u8> {
    let n = random.pick(&[0, 0, 1, 2, 12]);
    let mut bytes = faultless(random, n, Escapes::Some);
    if random.one_in(2) {
        bytes.extend(random.pick(&FAULTS).1);
    }
    bytes
}

/// A stretch between two 7E with the fault at a place, and often a second one behind it.
pub fn faulty(random: &mut Random, place: usize, escapes: Escapes, fault: &[u8]) -> Vec<u8> {
    let mut stream = vec![DELIMITER];
    stream.extend(faultless(random, place, escapes));
    stream.extend(fault);
    if fault != [ESCAPE] {
        stream.extend(after_fault(random));
    }
    stream.push(DELIMITER);
    stream
}

/// Bytes for a place where they are noise: any but 7E, some of them its neighbours.
pub fn noise_bytes(random: &mut Random, n: usize) -> Vec<u8> {
    let mut bytes = some_bytes(random, n);
    bytes.iter_mut().filter(|byte| **byte == DELIMITER).for_each(|byte| *byte = random.pick(&[0x7F, 0x7D, 0xFE, 0x7C]));
    bytes
}

/// A stream of parts with a mark between each two, and how many of its bytes are noise: each part begins with noise, or
/// with none, and at times goes on with a 7E and bytes that are no noise, whatever they are.
pub fn noisy(random: &mut Random, parts: usize, longest: usize) -> (Vec<Event>, u64) {
    let (mut events, mut noise) = (Vec::new(), 0);
    for part in 0..parts {
        if part > 0 {
            events.push(Event::Mark);
        }
        let n = random.below(longest + 1);
        noise += n as u64;
        events.extend(events_of(&noise_bytes(random, n)));
        if !random.one_in(3) {
            events.push(Event::Byte(DELIMITER));
            let n = random.below(longest + 1);
            let stretches =
                if random.one_in(3) { stuffed(&good_body(random, Kind::Request, n)) } else { wire_bytes(random, n) };
            events.extend(events_of(&stretches));
        }
    }
    (events, noise)
}

/// Counts of noise at which a byte or the highest bit of the count changes, 0, and the limit.
pub const COUNT_EDGES: [u32; 6] = [0, 1 << 8, 1 << 16, 1 << 24, 1 << 31, u32::MAX];

/// A count of noise: around 0 or another edge, often near the limit, or any.
pub fn count(random: &mut Random) -> u32 {
    match random.below(8) {
        0 => 0,
        1..=3 => u32::MAX - random.pick(&[0, 1, 2, 20, 300, 70_000]),
        4 | 5 => random.pick(&COUNT_EDGES).wrapping_add(random.below(40) as u32).wrapping_sub(20),
        6 => random.below(300) as u32,
        _ => random.u32() >> random.below(32),
    }
}

/// The bytes of a record before its store.
pub fn head(kind: u8, mode: u8, length: usize, count: u32) -> Vec<u8> {
    let mut head = vec![kind, mode, (length / 256) as u8, (length % 256) as u8];
    head.extend(count.to_be_bytes());
    head
}

/// A room for the frame: mostly as required, at times too short or long.
fn frame_room(random: &mut Random) -> usize {
    match random.below(16) {
        0 => 259,
        1 => 0,
        2 => random.below(260),
        3 => random.between(261, 300),
        _ => 260,
    }
}

/// A number that says that silence came before a piece: mostly 1, else any but 0.
pub fn silence(random: &mut Random) -> u8 {
    match random.below(4) {
        0 => random.between(1, 255) as u8,
        1 => random.pick(&[2, 9, 0x7E, 0x80, 0xFE, 0xFF]),
        _ => 1,
    }
}

/// One that says so once in some times, and else 0.
fn silence_or_none(random: &mut Random, times: usize) -> u8 {
    if random.one_in(times) {
        silence(random)
    } else {
        0
    }
}

/// Cuts a raw stream into pieces, some with silence before them, and with calls of short room between them.
pub fn steps(random: &mut Random, stream: &[u8], marks: usize) -> Vec<Step> {
    // Long streams mostly go in larger pieces, so that the time is spent on many streams and not on many calls.
    let widths: &[usize] = if stream.len() < 40 { &[1, 2, 3, 8, 40] } else { &[1, 20, 32, 40, 64, 128, 300, 700] };
    let widest = random.pick(widths);
    let mut steps = Vec::new();
    let (mut silence, mut rest) = (silence_or_none(random, marks), stream);
    while silence != 0 || !rest.is_empty() {
        let (piece, after) = rest.split_at(random.between(0, widest).min(rest.len()));
        let room = frame_room(random);
        steps.push(Step::Feed { silence, piece: Hex(piece.to_vec()), room, again: !random.one_in(12) });
        // A piece refused for its room is handed in again, and so is its silence; now and then they are not.
        if room >= STORE || random.one_in(4) {
            (silence, rest) = (silence_or_none(random, marks), after);
        }
    }
    steps
}

/// A raw stream of some parts.
pub fn stream(random: &mut Random, kind: Kind, parts: usize) -> Vec<u8> {
    (0..parts).flat_map(|_| stream_part(random, kind)).collect()
}

/// A series over a stream of a few parts.
pub fn series(random: &mut Random, salt: u32) -> Series {
    let kind_number = random.below(2) as u8;
    let kind = crate::cases::kind_of(kind_number);
    let (parts, n) = (random.between(1, 5), random.pick(&[0, 0, 1, 2, 9, 40, 300]));
    let mut bytes = noise_bytes(random, n);
    bytes.extend(stream(random, kind, parts));
    let marks = random.pick(&[4, 12, 100_000]);
    let mut steps = steps(random, &bytes, marks);
    if random.one_in(2) {
        steps.insert(random.below(steps.len() + 1), Step::Count(count(random)));
    }
    Series { kind: kind_number, steps, salt }
}

/// A call that is refused: short room, or a record that is too short or out of its ranges with any room.
fn spoilt(random: &mut Random) -> Spoilt {
    let any_room = random.pick(&[0, 259, 260, 260, 300]);
    match random.below(4) {
        0 => Spoilt::Short(random.pick(&[0, 4, 8, 264, 267]), any_room),
        1 => Spoilt::Byte(0, random.between(2, 255) as u8, any_room),
        2 => Spoilt::Byte(1, random.between(5, 255) as u8, any_room),
        _ if random.one_in(2) => Spoilt::Room(random.pick(&[0, 1, 4, 258, 259])),
        _ => Spoilt::Room(random.below(260)),
    }
}

/// A stream of a few parts with marks among its bytes, cut at any places, with or without refused calls.
pub fn handed(random: &mut Random, salt: u32) -> Handed {
    let kind = random.below(2) as u8;
    let (parts, n) = (random.between(1, 4), random.pick(&[0, 0, 1, 2, 9, 40]));
    let mut bytes = noise_bytes(random, n);
    bytes.extend(stream(random, crate::cases::kind_of(kind), parts));
    let mut stream = events_of(&bytes);
    for _ in 0..random.pick(&[1, 1, 2, 3, 8]) {
        stream.insert(random.below(stream.len() + 1), Event::Mark);
    }
    let cuts = (0..random.pick(&[0, 1, 2, 5, 12])).map(|_| random.below(stream.len())).collect();
    let refused = (0..random.pick(&[0, 0, 1, 2])).map(|_| spoilt(random)).collect();
    Handed { kind, stream, cuts, refused, flag: silence(random), salt }
}

/// A record in range that a stream may leave, or one with a field out of range.
pub fn record(random: &mut Random) -> Vec<u8> {
    let size = match random.below(10) {
        0 => random.below(RECORD),
        1 => random.between(RECORD + 1, RECORD + 20),
        // At times that of before 02 (viii).
        2 => random.pick(&[264, 267, RECORD, RECORD]),
        _ => RECORD,
    };
    let mut record = some_bytes(random, size.max(HEAD));
    let mode = random.below(5) as u8;
    // The reference makes up as many bytes as a length past the store's says, so large ones are few here and below.
    let length = match (mode, random.below(100)) {
        (0, _) => 0,
        (_, 0) if random.one_in(2) => random.below(65_536),
        (_, 0) if random.one_in(2) => random.between(65_270, 65_535),
        (_, 0..=9) => random.between(261, 1000),
        (_, 10..=29) => random.below(262),
        (_, 30..=49) => random.between(255, 265),
        _ => random.below(9),
    };
    record[..HEAD].copy_from_slice(&head(random.below(2) as u8, mode, length, count(random)));
    make_good(random, &mut record, length);
    if random.one_in(6) {
        let at = random.below(4);
        let high = at == 2 && !random.one_in(16);
        record[at] = if high { random.below(4) as u8 } else { random.byte() };
    }
    record.truncate(size);
    record
}

/// Makes the stored bytes a good body of the record's kind, so that the next 7E may give a frame.
fn make_good(random: &mut Random, record: &mut [u8], length: usize) {
    if length < 5 || length > STORE || record.len() < RECORD || random.one_in(3) {
        return;
    }
    let header = 3 + usize::from(record[0]);
    let body = &mut record[HEAD..HEAD + length];
    body[header - 1] = (length - header - 1) as u8;
    body[length - 1] = checksum(&body[..length - 1]);
}

pub fn round(random: &mut Random, salt: u32) -> crate::cases::Round {
    let size = random.below(120);
    let n = random.between(1, 8);
    let asks = (0..n).map(|_| ask(random)).collect();
    crate::cases::Round { size, asks, salt }
}

fn ask(random: &mut Random) -> Ask {
    let request = request(random);
    let skip = if random.one_in(8) { random.below(130) } else { 0 };
    Ask { address: address(random), request, value: value_for(random, request_field(request)), skip }
}
