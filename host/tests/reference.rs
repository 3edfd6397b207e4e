//! Document 01 once more, in plain Rust: written from the document, to be compared with the library.
//!
//! Nothing here is meant to be quick. Where the document speaks of a whole, this looks at the whole: a stretch is kept
//! as its raw bytes and judged when it ends, a CRC is a long division, a rounded quotient is the nearer of its two
//! neighbours. A refusal is the first in the document's order among all those whose condition holds.

use crate::board;
use crate::interface::*;
use crate::log;
use crate::replay;

/// The number of the first condition that holds, 0 where none does.
fn first(conditions: &[(u8, bool)]) -> u8 {
    conditions.iter().find(|(_, holds)| *holds).map_or(0, |(number, _)| *number)
}

/// Puts a writer's answer at the start of the room, or gives 1 where it does not fit.
fn place(answer: &[u8], room: &mut [u8]) -> Written {
    if room.len() < answer.len() {
        return Written { refusal: 1, length: 0 };
    }
    room[..answer.len()].copy_from_slice(answer);
    Written { refusal: 0, length: answer.len() }
}

fn refused(refusal: u8) -> Written {
    Written { refusal, length: 0 }
}

// ---- 01, Frames on the wire

pub const DELIMITER: u8 = 0x7E;
pub const ESCAPE: u8 = 0x7D;

/// Each special byte, and what follows a 7D in its place.
pub const STUFFING: [(u8, u8); 4] = [(0x7E, 0x5E), (0x7D, 0x5D), (0x11, 0x31), (0x13, 0x33)];

pub fn checksum(bytes: &[u8]) -> u8 {
    let sum: u64 = bytes.iter().map(|&byte| u64::from(byte)).sum();
    (255 - sum % 256) as u8
}

pub fn stuffed(bytes: &[u8]) -> Vec<u8> {
    let mut wire = Vec::with_capacity(2 * bytes.len() + 2);
    for byte in bytes {
        match STUFFING.iter().find(|(special, _)| special == byte) {
            Some((_, second)) => wire.extend_from_slice(&[ESCAPE, *second]),
            None => wire.push(*byte),
        }
    }
    wire
}

/// A body from all that stands before its checksum.
pub fn body(before_checksum: &[u8]) -> Vec<u8> {
    let mut whole = before_checksum.to_vec();
    whole.push(checksum(before_checksum));
    whole
}

/// A frame as it goes over the wire.
pub fn wire(body: &[u8]) -> Vec<u8> {
    let mut frame = vec![DELIMITER];
    frame.extend(stuffed(body));
    frame.push(DELIMITER);
    frame
}

/// How the raw bytes of a stretch come to their end.
#[derive(Clone, Copy, Debug, PartialEq, Eq)]
pub enum End {
    Whole,
    Escape,
    Fault(u8),
}

/// What the raw bytes of a stretch come to.
pub struct Unstuffed {
    /// The bytes before the earliest fault, or all of them.
    pub bytes: Vec<u8>,
    /// The number of raw bytes that these came as: the place of the fault, of a 7D that is last, or of the end.
    pub place: usize,
    /// The same for the first of them, as many as a record stores.
    pub stored: usize,
    /// A 7D that is last is not yet a fault: what comes next decides.
    pub end: End,
}

pub fn unstuffed(raw: &[u8]) -> Unstuffed {
    let mut bytes = Vec::with_capacity(raw.len());
    let (mut rest, mut stored) = (raw, 0);
    let end = loop {
        let (byte, tail) = match rest {
            [] => break End::Whole,
            [ESCAPE] => break End::Escape,
            [ESCAPE, second, tail @ ..] => match STUFFING.iter().find(|(_, after)| after == second) {
                Some((special, _)) => (*special, tail),
                None => break End::Fault(3),
            },
            [0x11, ..] | [0x13, ..] => break End::Fault(4),
            [byte, tail @ ..] => (*byte, tail),
        };
        bytes.push(byte);
        rest = tail;
        if bytes.len() <= STORE {
            stored = raw.len() - rest.len();
        }
    };
    Unstuffed { bytes, place: raw.len() - rest.len(), stored, end }
}

/// 02 (vii): "Places over 65,535 are reported as 65,535."
pub fn reported(place: usize) -> u16 {
    u16::try_from(place).unwrap_or(u16::MAX)
}

#[derive(Clone, Copy, Debug, PartialEq, Eq)]
pub enum Kind {
    Request,
    Reply,
}

impl Kind {
    /// The bytes of a body that stand before its data: address, command, L, and a reply's state.
    fn header(self) -> usize {
        match self {
            Kind::Request => 3,
            Kind::Reply => 4,
        }
    }
}

/// Refusals 5 to 8 of an unstuffed body.
pub fn body_refusal(kind: Kind, body: &[u8]) -> u8 {
    let least = kind.header() + 1;
    let most = least + 255;
    let said = body.get(kind.header() - 1).map(|&l| usize::from(l));
    let present = body.len().checked_sub(least);
    let sum_is_wrong = match body.split_last() {
        Some((last, before)) => *last != checksum(before),
        None => true,
    };
    first(&[(5, body.len() > most), (6, body.len() < least), (7, said != present), (8, sum_is_wrong)])
}

// ---- 01, What a stream means

#[derive(Clone, Copy, PartialEq, Eq)]
pub enum Event {
    Byte(u8),
    Mark,
}

/// As a stream is written elsewhere: 7E, 00, M.
impl std::fmt::Debug for Event {
    fn fmt(&self, f: &mut std::fmt::Formatter) -> std::fmt::Result {
        match self {
            Event::Byte(byte) => write!(f, "{byte:02X}"),
            Event::Mark => write!(f, "M"),
        }
    }
}

/// A frame, or a refusal and the place that it carries: 0 with all but 3 and 4, as in the C answer.
#[derive(Clone, Debug, PartialEq, Eq)]
pub enum Item {
    Frame(Vec<u8>),
    Refused(u8, u16),
}

/// The item of a non-empty stretch that a 7E has ended.
pub fn judged(kind: Kind, raw: &[u8]) -> Item {
    let whole = unstuffed(raw);
    match whole.end {
        End::Fault(number) => Item::Refused(number, reported(whole.place)),
        End::Escape => Item::Refused(3, reported(whole.place)),
        End::Whole => match body_refusal(kind, &whole.bytes) {
            0 => Item::Frame(whole.bytes),
            number => Item::Refused(number, 0),
        },
    }
}

/// The items of a whole stream: each pair of neighbouring cuts (7E or mark) that a 7E opens and that is not empty.
pub fn items(kind: Kind, events: &[Event]) -> Vec<Item> {
    items_at(kind, events).into_iter().map(|(_, item)| item).collect()
}

/// The same, each after the place of the 7E or mark at which the stream gains it.
pub fn items_at(kind: Kind, events: &[Event]) -> Vec<(usize, Item)> {
    let is_cut = |event: &Event| matches!(event, Event::Mark | Event::Byte(DELIMITER));
    let cuts: Vec<usize> = (0..events.len()).filter(|&at| is_cut(&events[at])).collect();
    let stretches = cuts.windows(2).filter(|pair| events[pair[0]] != Event::Mark && pair[1] > pair[0] + 1);
    stretches
        .map(|pair| match events[pair[1]] {
            Event::Mark => (pair[1], Item::Refused(9, 0)),
            Event::Byte(_) => (pair[1], judged(kind, &raw_bytes(&events[pair[0] + 1..pair[1]]))),
        })
        .collect()
}

/// The noise bytes of a whole stream: "Before the first 7E, and after a mark, bytes are noise". So of each part between
/// marks they are the bytes before its first 7E, or all where it has none; what comes behind it is in a stretch.
pub fn noise(events: &[Event]) -> u64 {
    let before_7e = |part: &[Event]| part.iter().take_while(|event| **event != Event::Byte(DELIMITER)).count();
    events.split(|event| *event == Event::Mark).map(|part| before_7e(part) as u64).sum()
}

/// What a call not refused with 1 or 2 adds to the stream. 02 (ix): "its mark to the stream first, then its bytes, none
/// where the mark gave 9". 01: "its piece up to and including the first byte at which the stream gains an item, else
/// the whole piece". So it is the shortest part, from the mark on, with which the stream has one item more, or all.
pub fn adds(kind: Kind, stream: &[Event], silence: bool, piece: &[u8]) -> Vec<Event> {
    let mut call = vec![Event::Mark; usize::from(silence)];
    let least = call.len();
    call.extend(events_of(piece));
    let before = items(kind, stream).len();
    let gains = |n: &usize| items(kind, &[stream, &call[..*n]].concat()).len() > before;
    let added = (least..=call.len()).find(gains).unwrap_or(call.len());
    call.truncate(added);
    call
}

/// 02 (viii): "the stream's noise bytes, or that limit if they are more"
pub fn counted(noise: u64) -> u32 {
    noise.min(4_294_967_295) as u32
}

pub fn raw_bytes(events: &[Event]) -> Vec<u8> {
    let byte = |event: &Event| match event {
        Event::Byte(byte) => Some(*byte),
        Event::Mark => None,
    };
    events.iter().filter_map(byte).collect()
}

pub fn events_of(bytes: &[u8]) -> Vec<Event> {
    bytes.iter().map(|&byte| Event::Byte(byte)).collect()
}

pub const STORE: usize = 260;
/// The bytes of a record before its store: kind, mode, length (high, low), noise count (four bytes, the highest first).
pub const HEAD: usize = 8;
pub const RECORD: usize = HEAD + STORE;

/// What a receiver has heard: the raw bytes since the last 7E (none in noise), how many bytes were noise, and what the
/// stretches that ended left in the store.
#[derive(Clone, Debug)]
pub struct Heard {
    kind: Kind,
    stretch: Option<Vec<u8>>,
    noise: u64,
    left: [u8; STORE],
}

impl Heard {
    pub fn nothing(kind: Kind) -> Heard {
        Heard { kind, stretch: None, noise: 0, left: [0; STORE] }
    }

    /// What is heard of a whole stream, whatever the calls were.
    pub fn all(kind: Kind, events: &[Event]) -> Heard {
        let mut heard = Heard::nothing(kind);
        for event in events {
            match event {
                Event::Mark => drop(heard.end(None)),
                Event::Byte(DELIMITER) => drop(heard.end(Some(Vec::new()))),
                Event::Byte(byte) => heard.add(&[*byte]),
            }
        }
        heard
    }

    /// The count as it is told, and as it stands in the record.
    pub fn count(&self) -> u32 {
        counted(self.noise)
    }

    /// As if so many bytes had been noise up to here.
    pub fn set_count(&mut self, count: u32) {
        self.noise = u64::from(count);
    }

    /// The store: the unstuffed bytes of the open stretch over what earlier ones left.
    fn store(&self) -> [u8; STORE] {
        let mut store = self.left;
        if let Some(raw) = &self.stretch {
            let bytes = unstuffed(raw).bytes;
            let kept = bytes.len().min(STORE);
            store[..kept].copy_from_slice(&bytes[..kept]);
        }
        store
    }

    /// The record of the C interface. Its length counts the stored bytes, then the raw bytes that those past the store
    /// came as, up to 65,535.
    pub fn record(&self) -> [u8; RECORD] {
        let (mode, length) = match self.stretch.as_deref().map(unstuffed) {
            None => (0, 0),
            Some(so_far) => {
                let mode = match so_far.end {
                    End::Whole => 1,
                    End::Escape => 2,
                    End::Fault(number) => number,
                };
                (mode, so_far.bytes.len().min(STORE) + so_far.place - so_far.stored)
            }
        };
        let mut record = [0; RECORD];
        record[0] = match self.kind {
            Kind::Request => 0,
            Kind::Reply => 1,
        };
        record[1] = mode;
        record[2..4].copy_from_slice(&reported(length).to_be_bytes());
        record[4..HEAD].copy_from_slice(&self.count().to_be_bytes());
        record[HEAD..].copy_from_slice(&self.store());
        record
    }

    /// A hearing that leaves the record given: every record in range is left by some stream. None is refusal 2.
    pub fn from_record(record: &[u8]) -> Option<Heard> {
        if record.len() < RECORD {
            return None;
        }
        let (kind, mode) = (record[0], record[1]);
        let length = usize::from(record[2]) * 256 + usize::from(record[3]);
        if kind > 1 || mode > 4 || (mode == 0 && length > 0) {
            return None;
        }
        let mut left = [0; STORE];
        left.copy_from_slice(&record[HEAD..RECORD]);
        let mut raw = stuffed(&left[..length.min(STORE)]);
        // Past the store only the number of raw bytes is kept, so any do. 65,535 stands for more of them too: a fault
        // behind as many as it says is at 65,535 or past it already.
        raw.resize(raw.len() + length.saturating_sub(STORE), 0);
        raw.extend_from_slice(match mode {
            2 => &[ESCAPE],
            3 => &[ESCAPE, 0x41],
            4 => &[0x11],
            _ => &[],
        });
        let kind = if kind == 0 { Kind::Request } else { Kind::Reply };
        // A count at its limit stands for more too: however much it was, the limit is told again.
        let noise = u64::from(number(&record[4..HEAD]));
        Some(Heard { kind, stretch: if mode == 0 { None } else { Some(raw) }, noise, left })
    }

    /// A call with room enough: its mark is dealt with first; where that cuts off a stretch no byte is taken.
    pub fn call(&mut self, silence: bool, piece: &[u8]) -> (usize, Option<Item>) {
        let cut = if silence { self.end(None) } else { Vec::new() };
        if cut.is_empty() {
            self.hear(piece)
        } else {
            (0, Some(Item::Refused(9, 0)))
        }
    }

    /// Takes bytes up to and including the one that completes an item, or all, and says how many.
    fn hear(&mut self, piece: &[u8]) -> (usize, Option<Item>) {
        let mut taken = 0;
        while let Some(before) = piece[taken..].iter().position(|&byte| byte == DELIMITER) {
            self.add(&piece[taken..taken + before]);
            taken += before + 1;
            let ended = self.end(Some(Vec::new()));
            if !ended.is_empty() {
                return (taken, Some(judged(self.kind, &ended)));
            }
        }
        self.add(&piece[taken..]);
        (piece.len(), None)
    }

    fn add(&mut self, bytes: &[u8]) {
        match &mut self.stretch {
            Some(raw) => raw.extend_from_slice(bytes),
            None => self.noise += bytes.len() as u64,
        }
    }

    /// Ends the open stretch, answers its raw bytes, and goes on with what is given.
    fn end(&mut self, next: Option<Vec<u8>>) -> Vec<u8> {
        self.left = self.store();
        std::mem::replace(&mut self.stretch, next).unwrap_or_default()
    }
}

/// A call's answer for the item it gained; a frame is put at the start of the lent buffer.
pub fn answer_of(taken: usize, item: Option<Item>, frame: &mut [u8]) -> Fed {
    match item {
        None => Fed { taken, ..Fed::default() },
        Some(Item::Refused(refusal, place)) => Fed { refusal, place, frame_length: 0, taken },
        Some(Item::Frame(body)) => {
            frame[..body.len()].copy_from_slice(&body);
            Fed { frame_length: body.len(), taken, ..Fed::default() }
        }
    }
}

// ---- 01, Commands of the SFC6 family

/// What a number on the wire stands for.
#[derive(Clone, Copy, Debug, PartialEq, Eq)]
pub enum Field {
    Nothing,
    Float,
    U16,
    U32,
    Address,
    Baud,
    Validity,
    Text,
    ErrorCode,
}

use Field::*;

/// A row of 01's table, split into its get and its set; the reply is the number of its kind.
#[derive(Clone, Copy, Debug)]
pub struct Row {
    pub command: u8,
    pub sub: Option<u8>,
    pub request: Field,
    pub reply: u8,
}

const fn row(command: u8, sub: Option<u8>, request: Field, reply: u8) -> Row {
    Row { command, sub, request, reply }
}

pub const ROWS: [Row; 21] = [
    row(0x00, Some(0x01), Nothing, 1),
    row(0x00, Some(0x01), Float, 0),
    row(0x08, Some(0x01), Nothing, 2),
    row(0x22, Some(0x00), Nothing, 3),
    row(0x22, Some(0x00), Float, 0),
    row(0x22, Some(0x03), Nothing, 4),
    row(0x22, Some(0x03), Float, 0),
    row(0x30, Some(0x00), Nothing, 5),
    row(0x30, Some(0x02), Nothing, 6),
    row(0x30, Some(0x10), Nothing, 7),
    row(0x40, Some(0x00), Nothing, 8),
    row(0x40, Some(0x10), U32, 9),
    row(0x44, Some(0x14), Nothing, 10),
    row(0x45, None, Nothing, 11),
    row(0x45, None, U32, 0),
    row(0x46, None, U32, 0),
    row(0x90, None, Nothing, 12),
    row(0x90, None, Address, 0),
    row(0x91, None, Nothing, 13),
    row(0x91, None, Baud, 0),
    row(0xD0, Some(0x00), Nothing, 14),
];

pub const SET_ADDRESS: u8 = 17;
pub const PRODUCT_TYPE: u8 = 14;
pub const DEVICE_ERROR: u8 = 15;
const BROADCAST: u8 = 255;

/// What each kind of reply carries, by its number.
pub const REPLIES: [Field; 16] =
    [Nothing, Float, Float, Float, Float, U16, U16, Float, U32, Validity, Float, U32, Address, Baud, Text, ErrorCode];

pub const BAUD_RATES: [u32; 5] = [9600, 19200, 38400, 57600, 115200];

/// The three codings that a reply may have in the place of a finite float: invalid, plus and minus infinity.
pub const CODINGS: [u32; 3] = [0xFFFF_FFFF, 0x7F80_0000, 0xFF80_0000];

/// The bytes a field takes in a frame. Text has no width of its own; an error code stands in the state byte.
fn width(field: Field) -> Option<usize> {
    match field {
        Nothing | ErrorCode => Some(0),
        Address | Validity => Some(1),
        U16 => Some(2),
        Float | U32 | Baud => Some(4),
        Text => None,
    }
}

/// Refusal 12 of a number.
fn out_of_range(field: Field, value: u32) -> bool {
    match field {
        Nothing | Float | U32 | Validity | Text => false,
        U16 => value > 65_535,
        Address => value > 254,
        Baud => !BAUD_RATES.contains(&value),
        ErrorCode => value < 1 || value > 127,
    }
}

/// The exponent bits are not all ones.
fn is_finite(bits: u32) -> bool {
    bits & 0x7F80_0000 != 0x7F80_0000
}

fn not_for_a_request(field: Field, value: u32) -> bool {
    field == Float && !is_finite(value)
}

fn not_for_a_reply(field: Field, value: u32) -> bool {
    field == Float && !is_finite(value) && !CODINGS.contains(&value)
}

/// A number as the field's bytes, the highest first. Of a validity, 02 (ii): yes is sent as 01.
fn big_endian(field: Field, value: u32) -> Vec<u8> {
    let sent = if field == Validity && value > 0 { 1 } else { value };
    let all = sent.to_be_bytes();
    all[4 - width(field).unwrap_or(0)..].to_vec()
}

fn number(bytes: &[u8]) -> u32 {
    bytes.iter().fold(0, |so_far, &byte| so_far * 256 + u32::from(byte))
}

/// What a field's bytes say. A validity is yes, 1, for all of 1 to 255.
fn said(field: Field, bytes: &[u8]) -> u32 {
    match (field, bytes) {
        (Validity, [1..=255]) => 1,
        _ => number(bytes),
    }
}

/// A request's own refusals, as its writer and both reply jobs begin with them. 11 comes before all else.
fn request_refusal(address: u8, request: u8, value: u32) -> u8 {
    match ROWS.get(usize::from(request)) {
        None => 11,
        Some(row) => first(&[
            (12, out_of_range(row.request, value)),
            (13, not_for_a_request(row.request, value)),
            (10, request == SET_ADDRESS && address == BROADCAST),
        ]),
    }
}

/// The frame of a request, or its refusal.
pub fn request_frame(address: u8, request: u8, value: u32) -> Result<Vec<u8>, u8> {
    match request_refusal(address, request, value) {
        0 => {
            let row = ROWS[usize::from(request)];
            let mut data: Vec<u8> = row.sub.into_iter().collect();
            data.extend(big_endian(row.request, value));
            let mut whole = vec![address, row.command, data.len() as u8];
            whole.extend(data);
            Ok(wire(&body(&whole)))
        }
        refusal => Err(refusal),
    }
}

/// A body's request: its number in the interface's order and its value.
fn request_of(address: u8, command: u8, data: &[u8]) -> Result<(u8, u32), u8> {
    let of_command: Vec<usize> = (0..ROWS.len()).filter(|&at| ROWS[at].command == command).collect();
    let has_sub = of_command.iter().any(|&at| ROWS[at].sub.is_some());
    let (sub, rest) = match data {
        [sub, rest @ ..] if has_sub => (Some(*sub), rest),
        _ => (None, data),
    };
    let of_sub: Vec<usize> = of_command.into_iter().filter(|&at| ROWS[at].sub == sub).collect();
    if of_sub.is_empty() {
        return Err(11);
    }
    let at = match of_sub.into_iter().find(|&at| width(ROWS[at].request) == Some(rest.len())) {
        Some(at) => at,
        None => return Err(12),
    };
    let value = number(rest);
    match request_refusal(address, at as u8, value) {
        0 => Ok((at as u8, value)),
        refusal => Err(refusal),
    }
}

pub fn read_request(body: &[u8]) -> Request {
    let refusal = body_refusal(Kind::Request, body);
    if refusal != 0 {
        return Request { refusal, ..Request::default() };
    }
    match request_of(body[0], body[1], &body[3..body.len() - 1]) {
        Ok((request, value)) => Request { refusal: 0, address: body[0], request, value },
        Err(refusal) => Request { refusal, ..Request::default() },
    }
}

/// The frame of a reply, or its refusal.
pub fn reply_frame(
    (address, request, value): (u8, u8, u32),
    reply: u8,
    reply_value: u32,
    text: &[u8],
    bit7: bool,
) -> Result<Vec<u8>, u8> {
    let own = request_refusal(address, request, value);
    if own != 0 {
        return Err(own);
    }
    let row = ROWS[usize::from(request)];
    let suits = reply == row.reply || reply == DEVICE_ERROR;
    let field = if suits { REPLIES[usize::from(reply)] } else { Nothing };
    let bad_text = field == Text && (text.contains(&0) || text.len() > 254);
    let mut data = big_endian(field, reply_value);
    if field == Text {
        data.extend_from_slice(text);
        data.push(0);
    }
    let refusal = first(&[
        (14, !suits || address == BROADCAST),
        (12, out_of_range(field, reply_value) || bad_text),
        (13, not_for_a_reply(field, reply_value)),
        // 01's test, which 02 (xi) takes out of the library: it never holds here.
        (5, data.len() > 255),
    ]);
    if refusal != 0 {
        return Err(refusal);
    }
    let code = if field == ErrorCode { reply_value as u8 } else { 0 };
    let state = code + if bit7 { 128 } else { 0 };
    let mut whole = vec![address, row.command, state, data.len() as u8];
    whole.extend(data);
    Ok(wire(&body(&whole)))
}

pub fn read_reply(address: u8, request: u8, value: u32, body: &[u8]) -> Reply {
    let with = |refusal| Reply { refusal, ..Reply::default() };
    let own = request_refusal(address, request, value);
    let of_body = body_refusal(Kind::Reply, body);
    let refusal = first(&[(own, own != 0), (of_body, of_body != 0)]);
    if refusal != 0 {
        return with(refusal);
    }
    let row = ROWS[usize::from(request)];
    let field = REPLIES[usize::from(row.reply)];
    let (code, bit7) = (body[2] % 128, body[2] / 128);
    let data = &body[4..body.len() - 1];
    let belongs = address != BROADCAST && body[0] == address && body[1] == row.command;
    let suits = if code == 0 { width(field).map_or(true, |n| n == data.len()) } else { data.is_empty() };
    if !belongs || !suits {
        return with(14);
    }
    if code != 0 {
        return Reply { refusal: 15, code, bit7, ..Reply::default() };
    }
    if field == Text {
        let text_length = data.iter().position(|&byte| byte == 0).unwrap_or(data.len());
        return Reply { bit7, reply: row.reply, text_start: 4, text_length, ..Reply::default() };
    }
    let value = said(field, data);
    match first(&[(12, out_of_range(field, value)), (13, not_for_a_reply(field, value))]) {
        0 => Reply { bit7, reply: row.reply, value, ..Reply::default() },
        refusal => with(refusal),
    }
}

// ---- 01, Words on I2C

/// The remainder of (the start value over the first eight bits of the message followed by eight zeros), divided by
/// x^8 + x^5 + x^4 + 1, the most significant bit first.
pub fn crc(start: u8, bytes: &[u8]) -> u8 {
    let mut dividend = bytes.to_vec();
    dividend.push(0);
    dividend[0] ^= start;
    for at in 0..8 * bytes.len() {
        let (byte, bit) = (at / 8, at % 8);
        if dividend[byte] & (0x80 >> bit) != 0 {
            // 1 0011 0001, laid with its leading one on this bit: nine bits over two bytes.
            let divisor = 0b1_0011_0001_u16 << (7 - bit);
            dividend[byte] ^= (divisor >> 8) as u8;
            dividend[byte + 1] ^= (divisor & 0xFF) as u8;
        }
    }
    dividend[bytes.len()]
}

/// A word on the wire: high byte, low byte, CRC.
pub fn word(start: u8, value: u16) -> [u8; 3] {
    let [high, low] = value.to_be_bytes();
    [high, low, crc(start, &[high, low])]
}

pub fn read_words(start: u8, bytes: &[u8], words: &mut [u16]) -> Words {
    let values: Vec<u16> = bytes.chunks(3).map(|chunk| number(&chunk[..chunk.len().min(2)]) as u16).collect();
    if bytes.is_empty() || bytes.len() % 3 != 0 {
        return Words { refusal: 16, count: 0 };
    }
    let is_wrong = |(chunk, value): (&[u8], &u16)| word(start, *value) != *chunk;
    if let Some(index) = bytes.chunks(3).zip(&values).position(is_wrong) {
        return Words { refusal: 17, count: index };
    }
    if words.len() < values.len() {
        return Words { refusal: 1, count: 0 };
    }
    words[..values.len()].copy_from_slice(&values);
    Words { refusal: 0, count: values.len() }
}

pub fn write_words(start: u8, words: &[u16], out: &mut [u8]) -> Written {
    if words.is_empty() {
        return refused(16);
    }
    let bytes: Vec<u8> = words.iter().flat_map(|&value| word(start, value)).collect();
    place(&bytes, out)
}

pub const SFC6_PLAIN: [u16; 4] = [0xE102, 0xE000, 0x3FEF, 0x3F6E];
pub const SFC6_CONCENTRATION: [u16; 3] = [0xE17D, 0x3650, 0x365B];
pub const LIQUID_PLAIN: [u8; 6] = [0xE3, 0xE5, 0xF1, 0xF3, 0xF5, 0xFE];
pub const LIQUID_WRITE: [u8; 2] = [0xE2, 0xE4];
const SFC6_START: u8 = 0xFF;

pub fn write_sfc6(code: u16, concentration: u32, out: &mut [u8]) -> Written {
    let mut bytes = code.to_be_bytes().to_vec();
    if SFC6_CONCENTRATION.contains(&code) && concentration <= 1000 {
        bytes.extend(word(SFC6_START, concentration as u16));
    } else if !SFC6_PLAIN.contains(&code) {
        return refused(12);
    }
    place(&bytes, out)
}

pub fn write_liquid(code: u8, value: u16, out: &mut [u8]) -> Written {
    let mut bytes = vec![code];
    if LIQUID_WRITE.contains(&code) {
        bytes.extend(value.to_be_bytes());
    } else if !LIQUID_PLAIN.contains(&code) {
        return refused(12);
    }
    place(&bytes, out)
}

/// A register with the bits of its field, which begins at a bit and has three, replaced.
fn edited(value: u16, field: u32, most: u32, lowest_bit: usize) -> Register {
    if field > most {
        return Register { refusal: 12, value: 0 };
    }
    let bit_of = |at: usize| {
        let in_field = at >= lowest_bit && at < lowest_bit + 3;
        if in_field {
            field as u16 >> (at - lowest_bit) & 1
        } else {
            value >> at & 1
        }
    };
    Register { refusal: 0, value: (0..16).map(|at| bit_of(at) << at).sum() }
}

pub fn edit_user(value: u16, field: u32) -> Register {
    edited(value, field, 4, 4)
}

pub fn edit_advanced(value: u16, field: u32) -> Register {
    edited(value, field, 7, 9)
}

// ---- 01, Scaled reading

fn scale_is_good(scale: i32) -> bool {
    (1..=32_767).contains(&scale)
}

/// The nearer of the two whole numbers around the quotient; of two equally near, the one further from zero.
pub fn scaled(raw: i16, offset: i16, scale: i32) -> Thousandths {
    if !scale_is_good(scale) {
        return Thousandths { refusal: 18, value: 0 };
    }
    let (thousands, scale) = ((i64::from(raw) - i64::from(offset)) * 1000, i64::from(scale));
    let below = thousands.div_euclid(scale);
    let above = below + 1;
    let (to_below, to_above) = (thousands - below * scale, above * scale - thousands);
    let further_out = if above.abs() > below.abs() { above } else { below };
    let nearest = match to_below.cmp(&to_above) {
        std::cmp::Ordering::Less => below,
        std::cmp::Ordering::Greater => above,
        std::cmp::Ordering::Equal => further_out,
    };
    Thousandths { refusal: 0, value: nearest as i32 }
}

/// The quotient in single precision, made from whole numbers: 24 bits, then to nearest, a half to the even one.
pub fn scaled_float(raw: i16, offset: i16, scale: i32) -> Quantity {
    if !scale_is_good(scale) {
        return Quantity { refusal: 18, value: 0.0 };
    }
    let difference = i64::from(raw) - i64::from(offset);
    let sign = if difference < 0 { 0x8000_0000 } else { 0 };
    let bits = quotient_bits(difference.unsigned_abs(), scale as u64);
    Quantity { refusal: 0, value: f32::from_bits(sign | bits) }
}

/// The bits of n / d as a single float, for n up to 65,535 and d from 1 to 32,767: never subnormal, never infinite.
fn quotient_bits(n: u64, d: u64) -> u32 {
    if n == 0 {
        return 0;
    }
    // The power of two that brings the quotient into 2^23 .. 2^24, where its whole part has 24 bits.
    let in_range = |shift: &u32| (n << shift) / d >= 1 << 23;
    let shift = (0..48).find(in_range).unwrap_or(0);
    let (whole, rest) = ((n << shift) / d, (n << shift) % d);
    let up = 2 * rest > d || (2 * rest == d && whole % 2 == 1);
    let mantissa = (whole + u64::from(up)) as u32;
    // Adding, and not joining, lets a mantissa of 2^24 carry into the exponent.
    ((127 + 23 - shift) << 23) + (mantissa - (1 << 23))
}

// ---- The reference behind the interface

pub struct Reference;

impl Interface for Reference {
    fn checksum(&self, bytes: &[u8]) -> u8 {
        checksum(bytes)
    }

    fn crc(&self, start: u8, bytes: &[u8]) -> u8 {
        crc(start, bytes)
    }

    fn write_request(&self, address: u8, request: u8, value: u32, out: &mut [u8]) -> Written {
        match request_frame(address, request, value) {
            Ok(frame) => place(&frame, out),
            Err(refusal) => refused(refusal),
        }
    }

    fn write_request_at(&self, buffer: &mut [u8], start: usize, address: u8, request: u8, value: u32) -> Written {
        let room = if start <= buffer.len() { &mut buffer[start..] } else { &mut [] };
        self.write_request(address, request, value, room)
    }

    fn read_request(&self, body: &[u8]) -> Request {
        read_request(body)
    }

    fn write_reply(
        &self,
        address: u8,
        request: u8,
        value: u32,
        reply: u8,
        reply_value: u32,
        text: &[u8],
        bit7: u8,
        out: &mut [u8],
    ) -> Written {
        match reply_frame((address, request, value), reply, reply_value, text, bit7 != 0) {
            Ok(frame) => place(&frame, out),
            Err(refusal) => refused(refusal),
        }
    }

    fn read_reply(&self, address: u8, request: u8, value: u32, body: &[u8]) -> Reply {
        read_reply(address, request, value, body)
    }

    fn receiver_fresh(&self, kind: u8, record: &mut [u8]) -> u8 {
        let refusal = first(&[(1, record.len() < RECORD), (12, kind > 1)]);
        if refusal == 0 {
            let kind = if kind == 0 { Kind::Request } else { Kind::Reply };
            record[..RECORD].copy_from_slice(&Heard::nothing(kind).record());
        }
        refusal
    }

    fn feed(&self, record: &mut [u8], silence: u8, piece: &[u8], frame: &mut [u8]) -> Fed {
        let mut heard = match Heard::from_record(record) {
            Some(heard) => heard,
            None => return Fed { refusal: 2, ..Fed::default() },
        };
        if frame.len() < STORE {
            return Fed { refusal: 1, ..Fed::default() };
        }
        let (taken, item) = heard.call(silence != 0, piece);
        record[..RECORD].copy_from_slice(&heard.record());
        answer_of(taken, item, frame)
    }

    fn receiver_noise(&self, record: &[u8]) -> Noise {
        match Heard::from_record(record) {
            Some(heard) => Noise { refusal: 0, count: heard.count() },
            None => Noise { refusal: 2, count: 0 },
        }
    }

    fn read_words(&self, start: u8, bytes: &[u8], words: &mut [u16]) -> Words {
        read_words(start, bytes, words)
    }

    fn write_words(&self, start: u8, words: &[u16], out: &mut [u8]) -> Written {
        write_words(start, words, out)
    }

    fn write_sfc6(&self, code: u16, concentration: u32, out: &mut [u8]) -> Written {
        write_sfc6(code, concentration, out)
    }

    fn write_liquid(&self, code: u8, value: u16, out: &mut [u8]) -> Written {
        write_liquid(code, value, out)
    }

    fn edit_user(&self, value: u16, field: u32) -> Register {
        edit_user(value, field)
    }

    fn edit_advanced(&self, value: u16, field: u32) -> Register {
        edit_advanced(value, field)
    }

    fn scaled(&self, raw: i16, offset: i16, scale: i32) -> Thousandths {
        scaled(raw, offset, scale)
    }

    fn scaled_float(&self, raw: i16, offset: i16, scale: i32) -> Quantity {
        scaled_float(raw, offset, scale)
    }

    fn board_open(&self, table: &mut [Entry], bus: u8, address: u8, kind: u8, lease: u32) -> u8 {
        board::open(table, bus, address, kind, lease)
    }

    fn board_close(&self, table: &mut [Entry], bus: u8, address: u8, kind: u8) -> u8 {
        board::close(table, bus, address, kind)
    }

    fn board_restart(&self, table: &mut [Entry], bus: u8, address: u8) -> u8 {
        board::restart(table, bus, address)
    }

    fn board_poll(&self, table: &mut [Entry]) -> u8 {
        board::poll(table)
    }

    fn board_list(&self, table: &[Entry], entries: &mut [Entry]) -> Listed {
        board::list(table, entries)
    }

    fn board_reply(&self, table: &mut [Entry], address: u8, request: u8, refusal: u8, lease: u32) -> u8 {
        board::reply(table, address, request, refusal, lease)
    }

    fn board_acknowledged(&self, table: &mut [Entry], address: u8, code: u16, lease: u32) -> u8 {
        board::acknowledged(table, address, code, lease)
    }

    fn log_empty(&self, file: &mut [u8]) -> Written {
        log::empty(file)
    }

    fn log_append(&self, file: &mut [u8], length: usize, kind: u8, body: &[u8]) -> Written {
        log::append(file, length, kind, body)
    }

    fn log_check(&self, file: &[u8]) -> Words {
        log::check(file)
    }

    fn log_list(&self, file: &[u8], skip: usize, rows: &mut [u16]) -> Words {
        log::list(file, skip, rows)
    }

    fn log_replay(&self, file: &[u8], lease: u32, entries: &mut [Entry]) -> Listed {
        replay::replay(file, lease, entries)
    }
}
