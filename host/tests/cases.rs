//! One case for each exported function, and the series of calls that share a receiver.

use crate::harness::*;
use crate::interface::*;
use crate::library::Library;
use crate::reference::{adds, answer_of, counted, events_of, items, noise, raw_bytes};
use crate::reference::{Event, Heard, Item, Kind, Reference, HEAD, RECORD, STORE};
use crate::{call, case};

fn bytes(hex: &Hex, salt: u32) -> Lent<u8> {
    Lent::holding(&hex.0, salt)
}

call! { Checksum { bytes: Hex } -> u8, |self, on| {
    let lent = bytes(&self.bytes, self.salt);
    outcome(on.checksum(lent.contents()), vec![lent])
} }

call! { Crc { start: u8, bytes: Hex } -> u8, |self, on| {
    let lent = bytes(&self.bytes, self.salt);
    outcome(on.crc(self.start, lent.contents()), vec![lent])
} }

call! { WriteRequest { address: u8, request: u8, value: u32, room: usize } -> Written, |self, on| {
    let mut out = Lent::room(self.room, self.salt);
    outcome(on.write_request(self.address, self.request, self.value, out.slice()), vec![out])
} }

call! { WriteRequestAt { size: usize, start: usize, address: u8, request: u8, value: u32 } -> Written, |self, on| {
    let mut buffer = Lent::room(self.size, self.salt);
    let written = on.write_request_at(buffer.slice(), self.start, self.address, self.request, self.value);
    outcome(written, vec![buffer])
} }

call! { ReadRequest { body: Body } -> Request, |self, on| {
    let body = Lent::holding(&self.body.0, self.salt);
    outcome(on.read_request(body.contents()), vec![body])
} }

call! {
    WriteReply {
        address: u8, request: u8, value: u32, reply: u8, reply_value: u32, text: Hex, bit7: u8, room: usize,
    } -> Written, |self, on| {
        let text = bytes(&self.text, self.salt);
        let mut out = Lent::room(self.room, self.salt + 1);
        let (text_in, out_in) = (text.contents(), out.slice());
        let written = on.write_reply(
            self.address, self.request, self.value, self.reply, self.reply_value, text_in, self.bit7, out_in,
        );
        outcome(written, vec![text, out])
    }
}

call! { ReadReply { address: u8, request: u8, value: u32, body: Body } -> Reply, |self, on| {
    let body = Lent::holding(&self.body.0, self.salt);
    outcome(on.read_reply(self.address, self.request, self.value, body.contents()), vec![body])
} }

call! { Fresh { kind: u8, size: usize } -> u8, |self, on| {
    let mut record = Lent::room(self.size, self.salt);
    outcome(on.receiver_fresh(self.kind, record.slice()), vec![record])
} }

call! {
    /// One call on a record of any bytes.
    Feed { record: Hex, silence: u8, piece: Hex, room: usize } -> Fed, |self, on| {
        let mut record = bytes(&self.record, self.salt);
        let piece = bytes(&self.piece, self.salt + 1);
        let mut frame = Lent::room(self.room, self.salt + 2);
        let fed = on.feed(record.slice(), self.silence, piece.contents(), frame.slice());
        outcome(fed, vec![record, piece, frame])
    }
}

call! {
    /// Asking a record of any bytes for its count.
    ReceiverNoise { record: Hex } -> Noise, |self, on| {
        let record = bytes(&self.record, self.salt);
        outcome(on.receiver_noise(record.contents()), vec![record])
    }
}

call! { ReadWords { start: u8, bytes: Hex, room: usize } -> Words, |self, on| {
    let lent = bytes(&self.bytes, self.salt);
    let mut words = Lent::room(self.room, self.salt + 1);
    let answer = on.read_words(self.start, lent.contents(), words.slice());
    Outcome { answer, lent: vec![lent], words: vec![words] }
} }

call! { WriteWords { start: u8, words: Vec<u16>, room: usize } -> Written, |self, on| {
    let words = Lent::holding(&self.words, self.salt);
    let mut out = Lent::room(self.room, self.salt + 1);
    let answer = on.write_words(self.start, words.contents(), out.slice());
    Outcome { answer, lent: vec![out], words: vec![words] }
} }

call! { WriteSfc6 { code: u16, concentration: u32, room: usize } -> Written, |self, on| {
    let mut out = Lent::room(self.room, self.salt);
    outcome(on.write_sfc6(self.code, self.concentration, out.slice()), vec![out])
} }

call! { WriteLiquid { code: u8, value: u16, room: usize } -> Written, |self, on| {
    let mut out = Lent::room(self.room, self.salt);
    outcome(on.write_liquid(self.code, self.value, out.slice()), vec![out])
} }

call! { EditUser { value: u16, field: u32 } -> Register, |self, on| {
    outcome(on.edit_user(self.value, self.field), Vec::new())
} }

call! { EditAdvanced { value: u16, field: u32 } -> Register, |self, on| {
    outcome(on.edit_advanced(self.value, self.field), Vec::new())
} }

call! { Scaled { raw: i16, offset: i16, scale: i32 } -> Thousandths, |self, on| {
    outcome(on.scaled(self.raw, self.offset, self.scale), Vec::new())
} }

call! { ScaledFloat { raw: i16, offset: i16, scale: i32 } -> Quantity, |self, on| {
    outcome(on.scaled_float(self.raw, self.offset, self.scale), Vec::new())
} }

// ---- A polling round: frames laid one after another into one buffer

case! {
    Ask { address: u8, request: u8, value: u32, skip: usize }
}

case! {
    /// Each frame begins where the last one ended, moved on by its skip.
    Round { size: usize, asks: Vec<Ask>, salt: u32 }
}

impl Case for Round {
    fn calls(&self) -> u64 {
        self.asks.len() as u64
    }

    fn fault(&self) -> Option<String> {
        let library = Library { null_for_empty: self.salt % 2 == 1 };
        let mut expected: Lent<u8> = Lent::room(self.size, self.salt);
        let mut found = expected.clone();
        let mut end = 0;
        for (at, ask) in self.asks.iter().enumerate() {
            let start = end + ask.skip;
            let (address, request, value) = (ask.address, ask.request, ask.value);
            let wanted = Reference.write_request_at(expected.slice(), start, address, request, value);
            let got = library.write_request_at(found.slice(), start, address, request, value);
            if wanted != got {
                return Some(format!("answer of call {at} at {start}: expected {wanted:?}, found {got:?}"));
            }
            if let Some(difference) = expected.difference(&found) {
                return Some(format!("buffer after call {at}, {difference}"));
            }
            if wanted.refusal == 0 {
                end = start + wanted.length;
            }
        }
        None
    }
}

// ---- Series of calls with one receiver

#[derive(Clone, Debug)]
pub enum Step {
    /// One piece, and whether silence came before it; where `again` is set, what was not taken is handed in again,
    /// without the silence, until nothing is left.
    Feed { silence: u8, piece: Hex, room: usize, again: bool },
    /// The bytes in pieces of a size, each rest again; the record is compared after the last alone. The reference looks
    /// at the whole stretch for each record, and takes five seconds for those of 65,535 bytes one by one.
    Parts { bytes: Hex, widest: usize },
    /// The count of noise is set, as if so many bytes had been noise: to feed as many as its limit takes too long.
    Count(u32),
}

impl Smaller for Step {
    fn smaller(&self) -> Vec<Step> {
        match self {
            Step::Count(count) => count.smaller().into_iter().map(Step::Count).collect(),
            Step::Parts { bytes, widest } => {
                bytes.smaller().into_iter().map(|bytes| Step::Parts { bytes, widest: *widest }).collect()
            }
            Step::Feed { silence, piece, room, again } => {
                let with = |silence: u8, piece: &Hex, room: usize, again: bool| {
                    let piece = piece.clone();
                    Step::Feed { silence, piece, room, again }
                };
                let silences = silence.smaller().into_iter().map(|smaller| with(smaller, piece, *room, *again));
                let smaller_pieces = piece.smaller();
                let pieces = smaller_pieces.iter().map(|smaller| with(*silence, smaller, *room, *again));
                let flags = again.smaller().into_iter().map(|smaller| with(*silence, piece, *room, smaller));
                // A short room stays short and a long one long; else the case would turn into another.
                let rooms = if *room > STORE { vec![with(*silence, piece, STORE, *again)] } else { Vec::new() };
                silences.chain(pieces).chain(flags).chain(rooms).collect()
            }
        }
    }
}

case! {
    /// The reference hears the stream and never sees the library's record; it says what each answer, each record and
    /// each buffer must be.
    Series { kind: u8, steps: Vec<Step>, salt: u32 }
}

/// Streams under this length are held to demand 3's own words at every call, which look at the whole each time.
const SHORT: usize = 12;

/// A running series: what the reference has heard, and the record that the library keeps.
struct Running {
    kind: Kind,
    library: Library,
    heard: Heard,
    record: Lent<u8>,
    expected_record: Lent<u8>,
    events: Vec<Event>,
    gained: Vec<Item>,
    /// A count, and the noise of the stream when it was set.
    set: (u32, u64),
    salt: u32,
}

impl Running {
    fn begin(kind: u8, salt: u32) -> Result<Running, String> {
        let library = Library { null_for_empty: salt % 2 == 1 };
        let heard = Heard::nothing(kind_of(kind));
        let expected_record = Lent::room(RECORD + salt as usize % 4, salt);
        let mut record = expected_record.clone();
        let answer = library.receiver_fresh(kind, record.slice());
        let (kind, events, gained, set) = (kind_of(kind), Vec::new(), Vec::new(), (0, 0));
        let mut running = Running { kind, library, heard, record, expected_record, events, gained, set, salt };
        same("fresh answers", &0, &answer)?;
        running.same_record()?;
        Ok(running)
    }

    /// The count is asked for first, so that the record shows whether asking changes it.
    fn same_record(&mut self) -> Result<(), String> {
        let expected = Noise { refusal: 0, count: self.heard.count() };
        same("noise answers", &expected, &self.library.receiver_noise(self.record.contents()))?;
        self.expected_record.slice()[..RECORD].copy_from_slice(&self.heard.record());
        self.expected_record.difference(&self.record).map_or(Ok(()), |text| Err(format!("record, {text}")))
    }

    fn set_count(&mut self, count: u32) -> Result<(), String> {
        self.heard.set_count(count);
        self.record.slice()[4..HEAD].copy_from_slice(&count.to_be_bytes());
        self.set = (count, noise(&self.events));
        self.same_record()
    }

    /// The count that the whole stream says.
    fn count(&self) -> u32 {
        let (count, noise_then) = self.set;
        counted(u64::from(count) + noise(&self.events) - noise_then)
    }

    /// One call, its record not yet compared; answers how many bytes it took.
    fn feed(&mut self, silence: u8, piece: &[u8], room: usize) -> Result<usize, String> {
        self.salt = self.salt.wrapping_add(7);
        let mut expected_frame: Lent<u8> = Lent::room(room, self.salt);
        let mut frame = expected_frame.clone();
        let expected_piece = Lent::holding(piece, self.salt + 1);
        let lent_piece = expected_piece.clone();
        let expected = if room < STORE {
            Fed { refusal: 1, ..Fed::default() }
        } else {
            let (taken, item) = self.heard.call(silence != 0, piece);
            answer_of(taken, item, expected_frame.slice())
        };
        let found = self.library.feed(self.record.slice(), silence, lent_piece.contents(), frame.slice());
        same("feed answers", &expected, &found)?;
        let buffers = [("frame", expected_frame, frame.clone()), ("piece", expected_piece, lent_piece)];
        for (name, expected, found) in buffers {
            if let Some(text) = expected.difference(&found) {
                return Err(format!("{name}, {text}"));
            }
        }
        if room >= STORE {
            self.add(silence != 0, piece, found.taken)?;
        }
        if found.frame_length > 0 {
            self.gained.push(Item::Frame(frame.contents()[..found.frame_length].to_vec()));
        } else if found.refusal > 1 {
            self.gained.push(Item::Refused(found.refusal, found.place));
        }
        Ok(found.taken)
    }

    /// The stream goes on with what a call adds that took so many bytes of its piece: its mark, then these.
    fn add(&mut self, silence: bool, piece: &[u8], taken: usize) -> Result<(), String> {
        let mut added = vec![Event::Mark; usize::from(silence)];
        added.extend(events_of(&piece[..taken]));
        if self.events.len() + piece.len() < SHORT {
            same("the call adds", &adds(self.kind, &self.events, silence, piece), &added)?;
        }
        self.events.extend(added);
        Ok(())
    }

    fn step(&mut self, step: &Step) -> Result<(), String> {
        match step {
            Step::Count(count) => self.set_count(*count),
            Step::Feed { silence, piece, room, again } => {
                let (mut silence, mut rest) = (*silence, &piece.0[..]);
                loop {
                    let taken = self.feed(silence, rest, *room)?;
                    self.same_record()?;
                    (silence, rest) = (0, &rest[taken..]);
                    if rest.is_empty() || !again || *room < STORE {
                        return Ok(());
                    }
                }
            }
            Step::Parts { bytes, widest } => {
                for part in bytes.0.chunks(*widest) {
                    let mut rest = part;
                    while !rest.is_empty() {
                        rest = &rest[self.feed(0, rest, STORE)?..];
                    }
                }
                self.same_record()
            }
        }
    }
}

pub fn kind_of(kind: u8) -> Kind {
    if kind == 0 {
        Kind::Request
    } else {
        Kind::Reply
    }
}

pub fn same<T: PartialEq + std::fmt::Debug>(what: &str, expected: &T, found: &T) -> Result<(), String> {
    if expected == found {
        Ok(())
    } else {
        Err(format!("{what} {found:?}, expected {expected:?}"))
    }
}

impl Series {
    fn run(&self) -> Result<(), String> {
        let mut running = Running::begin(self.kind, self.salt)?;
        for (at, step) in self.steps.iter().enumerate() {
            running.step(step).map_err(|text| format!("step {at}: {text}"))?;
        }
        // The stream follows from the calls alone; the items gained on the way and the noise are those of the whole.
        same("the items are", &items(kind_of(self.kind), &running.events), &running.gained)?;
        let found = running.library.receiver_noise(running.record.contents()).count;
        same("the noise of the stream is", &running.count(), &found)
    }
}

impl Case for Series {
    fn calls(&self) -> u64 {
        let calls = |step: &Step| match step {
            Step::Parts { bytes, widest } => bytes.0.len().div_ceil(*widest) as u64,
            _ => 1,
        };
        1 + self.steps.iter().map(calls).sum::<u64>()
    }

    fn fault(&self) -> Option<String> {
        self.run().err()
    }
}

// ---- A stream handed in by the rule of 02 (ix)

/// A call that is refused with 1 or 2.
#[derive(Clone, Copy, Debug)]
pub enum Spoilt {
    /// Room under 260.
    Room(usize),
    /// So many bytes of the record, under 268, and any room.
    Short(usize, usize),
    /// A record with another byte at a place, which takes it out of its ranges, and any room.
    Byte(usize, u8, usize),
}

impl Spoilt {
    fn refusal(self) -> u8 {
        match self {
            Spoilt::Room(_) => 1,
            Spoilt::Short(..) | Spoilt::Byte(..) => 2,
        }
    }

    fn room(self) -> usize {
        match self {
            Spoilt::Room(room) | Spoilt::Short(_, room) | Spoilt::Byte(_, _, room) => room,
        }
    }

    fn record(self, record: &[u8]) -> Vec<u8> {
        let mut record = record.to_vec();
        match self {
            Spoilt::Room(_) => {}
            Spoilt::Short(size, _) => record.truncate(size),
            Spoilt::Byte(at, byte, _) => record[at] = byte,
        }
        record
    }
}

/// Each is as small as another: one that is not needed is left out whole.
impl Smaller for Spoilt {
    fn smaller(&self) -> Vec<Spoilt> {
        Vec::new()
    }
}

impl Smaller for Event {
    fn smaller(&self) -> Vec<Event> {
        match self {
            Event::Mark => Vec::new(),
            Event::Byte(byte) => byte.smaller().into_iter().map(Event::Byte).collect(),
        }
    }
}

case! {
    /// A stream cut at its marks and at these places too, so that a cut piece has its flag on the first part alone.
    /// Before each call the refused ones are made, with the same flag and piece. However it is cut, the items, the end
    /// record and the noise are those of the whole stream.
    Handed { kind: u8, stream: Vec<Event>, cuts: Vec<usize>, refused: Vec<Spoilt>, flag: u8, salt: u32 }
}

/// What is lent to the calls of one stream, and the library that they are made on.
struct Hands {
    library: Library,
    record: Lent<u8>,
    frame: Lent<u8>,
}

impl Hands {
    /// A call that must be refused: nothing is taken, and all that is lent comes back as it was.
    fn refused(&mut self, spoilt: Spoilt, silence: u8, piece: &[u8]) -> Result<(), String> {
        let record_before = Lent::holding(&spoilt.record(self.record.contents()), 3);
        let frame_before: Lent<u8> = Lent::room(spoilt.room(), 5);
        let (mut record, mut frame) = (record_before.clone(), frame_before.clone());
        let found = self.library.feed(record.slice(), silence, piece, frame.slice());
        same("a refused call answers", &Fed { refusal: spoilt.refusal(), ..Fed::default() }, &found)?;
        unchanged("the record of a refused call", &record_before, &record)?;
        unchanged("the frame of a refused call", &frame_before, &frame)
    }

    /// A call that is not refused with 1 or 2; answers how many bytes it took and the item.
    fn call(&mut self, silence: u8, piece: &[u8]) -> Result<(usize, Option<Item>), String> {
        let mut expected_frame = self.frame.clone();
        let found = self.library.feed(self.record.slice(), silence, piece, self.frame.slice());
        if found.taken > piece.len() || found.frame_length > STORE {
            return Err(format!("more than was lent: {found:?}"));
        }
        if found.refusal == 9 && (found.taken > 0 || silence == 0) {
            return Err(format!("9 without silence or with bytes: {found:?}"));
        }
        if found.taken == 0 && silence == 0 {
            // No receiver does that, and whoever hands in the rest must come to an end.
            return Err("nothing taken of a piece that is not empty".to_string());
        }
        let body = self.frame.contents()[..found.frame_length].to_vec();
        expected_frame.slice()[..body.len()].copy_from_slice(&body);
        unchanged("the frame past its body", &expected_frame, &self.frame)?;
        let item = match found {
            Fed { refusal: 0, frame_length: 0, .. } => None,
            Fed { refusal: 0, .. } => Some(Item::Frame(body)),
            Fed { refusal, place, .. } => Some(Item::Refused(refusal, place)),
        };
        Ok((found.taken, item))
    }
}

fn unchanged(what: &str, expected: &Lent<u8>, found: &Lent<u8>) -> Result<(), String> {
    expected.difference(found).map_or(Ok(()), |text| Err(format!("{what}, {text}")))
}

impl Handed {
    /// The pieces, and whether each has the flag.
    fn pieces(&self) -> Vec<(bool, Vec<u8>)> {
        let stream = &self.stream;
        let begins = |at: &usize| *at == 0 || stream[*at] == Event::Mark || self.cuts.contains(at);
        let starts: Vec<usize> = (0..stream.len()).filter(begins).collect();
        let ends = starts.iter().copied().skip(1).chain([stream.len()]);
        let parts = starts.iter().zip(ends).map(|(&from, to)| &stream[from..to]);
        parts.map(|part| (part[0] == Event::Mark, raw_bytes(part))).collect()
    }

    fn run(&self) -> Result<(), String> {
        let kind = kind_of(self.kind);
        let record = Lent::room(RECORD + self.salt as usize % 4, self.salt);
        let frame = Lent::room(STORE + self.salt as usize % 3, self.salt + 1);
        let mut expected_record = record.clone();
        let mut hands = Hands { library: Library { null_for_empty: self.salt % 2 == 1 }, record, frame };
        same("fresh answers", &0, &hands.library.receiver_fresh(self.kind, hands.record.slice()))?;
        let mut gained = Vec::new();
        for (silence, piece) in self.pieces() {
            let (mut silence, mut rest) = (if silence { self.flag } else { 0 }, &piece[..]);
            // "an empty rest with the flag still counts as left"
            while silence != 0 || !rest.is_empty() {
                for spoilt in &self.refused {
                    hands.refused(*spoilt, silence, rest)?;
                }
                let (taken, item) = hands.call(silence, rest)?;
                gained.extend(item);
                (silence, rest) = (0, &rest[taken..]);
            }
        }
        same("the items are", &items(kind, &self.stream), &gained)?;
        let end = Heard::all(kind, &self.stream);
        expected_record.slice()[..RECORD].copy_from_slice(&end.record());
        unchanged("the end record", &expected_record, &hands.record)?;
        let count = Noise { refusal: 0, count: counted(noise(&self.stream)) };
        same("the noise of the stream is", &count, &hands.library.receiver_noise(hands.record.contents()))
    }
}

impl Case for Handed {
    fn calls(&self) -> u64 {
        1 + self.pieces().len() as u64 * (1 + self.refused.len() as u64)
    }

    fn fault(&self) -> Option<String> {
        // Made smaller, a flag of 0 would be none.
        if self.flag == 0 {
            return None;
        }
        self.run().err()
    }
}

case! {
    /// By the library alone: silence and a piece in one call are silence before an empty piece and then, where that was
    /// not refused, the piece. What is refused with 1 or 2 changes nothing; 9 takes nothing and leaves the frame.
    AtOnce { record: Hex, silence: u8, piece: Hex, room: usize, salt: u32 }
}

impl AtOnce {
    fn run(&self) -> Result<(), String> {
        let library = Library { null_for_empty: self.salt % 2 == 1 };
        let record_before = bytes(&self.record, self.salt);
        let frame_before: Lent<u8> = Lent::room(self.room, self.salt + 1);
        let (mut record, mut frame) = (record_before.clone(), frame_before.clone());
        let at_once = library.feed(record.slice(), self.silence, &self.piece.0, frame.slice());
        let (mut record_after, mut frame_after) = (record_before.clone(), frame_before.clone());
        let mut after = library.feed(record_after.slice(), self.silence, &[], frame_after.slice());
        if after.refusal == 0 {
            after = library.feed(record_after.slice(), 0, &self.piece.0, frame_after.slice());
        }
        same("in two calls it is", &at_once, &after)?;
        unchanged("the record after two calls", &record, &record_after)?;
        unchanged("the frame after two calls", &frame, &frame_after)?;
        match at_once.refusal {
            1 | 2 => {
                same("refused, it answers", &Fed { refusal: at_once.refusal, ..Fed::default() }, &at_once)?;
                unchanged("the record of a refused call", &record_before, &record)?;
                unchanged("the frame of a refused call", &frame_before, &frame)
            }
            9 => {
                same("only silence gives 9", &true, &(self.silence != 0))?;
                same("with 9 it answers", &Fed { refusal: 9, ..Fed::default() }, &at_once)?;
                unchanged("the frame beside 9", &frame_before, &frame)
            }
            _ => Ok(()),
        }
    }
}

impl Case for AtOnce {
    fn calls(&self) -> u64 {
        3
    }

    fn fault(&self) -> Option<String> {
        self.run().err()
    }
}
