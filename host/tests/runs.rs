//! Runs of plain bytes in the texts of written replies. The library may copy a run at once; the reference stuffs byte
//! by byte. What can go wrong lies at the ends: of a run, of its blocks, of the text and of the room.

use crate::case;
use crate::harness::*;
use crate::interface::{Fed, Interface, Reply, Written};
use crate::library::Library;
use crate::reference::{reply_frame, PRODUCT_TYPE, RECORD, STORE, STUFFING};

/// The request for the product type, whose answer is a text of up to so many bytes.
const ASKED: u8 = 20;
const LONGEST: usize = 254;

/// The special bytes with a bit dropped, added or off by one.
const NEAR: [u8; 18] =
    [0x01, 0x03, 0x10, 0x12, 0x14, 0x31, 0x33, 0x51, 0x53, 0x5D, 0x5E, 0x7C, 0x7F, 0x80, 0x91, 0x93, 0xFD, 0xFE];

// ---- The case

case! {
    /// A text written into room that is just enough, a byte short, and more than enough, each holding bytes of two kinds
    /// before; then received and read by the library alone.
    Run { address: u8, text: Hex, bit7: u8, salt: u32 }
}

impl Run {
    fn write(&self, library: &Library, room: &Lent<u8>, frame: &[u8]) -> Result<(), String> {
        let (mut expected, mut out) = (room.clone(), room.clone());
        let fits = frame.len() <= room.contents().len();
        if fits {
            expected.slice()[..frame.len()].copy_from_slice(frame);
        }
        let text_before = Lent::holding(&self.text.0, self.salt + 3);
        let text = text_before.clone();
        let wanted = if fits { Written { refusal: 0, length: frame.len() } } else { Written { refusal: 1, length: 0 } };
        let (bit7, slice) = (self.bit7, out.slice());
        let found = library.write_reply(self.address, ASKED, 0, PRODUCT_TYPE, 0, text.contents(), bit7, slice);
        let length = room.contents().len();
        let differs = |what: &str, place: String| Err(format!("{what} with room for {length}, {place}"));
        if found != wanted {
            return differs("answer", format!("expected {wanted:?}, found {found:?}"));
        }
        if let Some(place) = expected.difference(&out) {
            return differs("frame", place);
        }
        text_before.difference(&text).map_or(Ok(()), |place| differs("text", place))
    }

    /// By the library alone: the written frame is one whole frame, and its text is the one that was written.
    fn read_back(&self, library: &Library) -> Result<(), String> {
        let (mut out, mut record, mut body) = ([0; 2 * STORE + 2], [0; RECORD], [0; STORE]);
        let (address, text, bit7) = (self.address, &self.text.0[..], u8::from(self.bit7 != 0));
        let length = library.write_reply(address, ASKED, 0, PRODUCT_TYPE, 0, text, self.bit7, &mut out).length;
        library.receiver_fresh(1, &mut record);
        let fed = library.feed(&mut record, 0, &out[..length], &mut body);
        let whole = Fed { frame_length: text.len() + 6, taken: length, ..Fed::default() };
        if fed != whole {
            return Err(format!("received: expected {whole:?}, found {fed:?}"));
        }
        let body = &body[..fed.frame_length];
        let read = library.read_reply(address, ASKED, 0, body);
        let wanted = Reply { bit7, reply: PRODUCT_TYPE, text_start: 4, text_length: text.len(), ..Reply::default() };
        if read != wanted {
            return Err(format!("read: expected {wanted:?}, found {read:?}"));
        }
        if &body[4..4 + text.len()] != text {
            return Err(format!("read: another text, {:?}", Hex(body[4..4 + text.len()].to_vec())));
        }
        Ok(())
    }
}

impl Case for Run {
    /// Three rooms with two kinds of bytes in each, then a writing, a fresh receiver, a feed and a reading.
    fn calls(&self) -> u64 {
        10
    }

    fn fault(&self) -> Option<String> {
        // Made smaller, a text may hold a 00 and an address may be any: what is refused for that is not a case here.
        let asked = (self.address, ASKED, 0);
        let frame = reply_frame(asked, PRODUCT_TYPE, 0, &self.text.0, self.bit7 != 0).ok()?;
        let library = Library { null_for_empty: self.salt % 2 == 1 };
        let more = 1 + self.salt as usize % 40;
        for length in [frame.len(), frame.len() - 1, frame.len() + more] {
            let room = Lent::room(length, self.salt);
            for room in [room.clone(), room.inverted()] {
                if let Err(text) = self.write(&library, &room, &frame) {
                    return Some(text);
                }
            }
        }
        self.read_back(&library).err()
    }
}

// ---- Texts

fn is_special(byte: u8) -> bool {
    STUFFING.iter().any(|(special, _)| *special == byte)
}

fn special(random: &mut Random) -> u8 {
    random.pick(&STUFFING).0
}

/// Any byte that a text may hold and that is not stuffed, one of the near ones in every four.
fn plain(random: &mut Random) -> u8 {
    if random.one_in(4) {
        return random.pick(&NEAR);
    }
    loop {
        let byte = random.byte();
        if byte != 0 && !is_special(byte) {
            return byte;
        }
    }
}

fn plains(random: &mut Random, length: usize) -> Vec<u8> {
    (0..length).map(|_| plain(random)).collect()
}

/// A text with any address to it, so that the checksum is each byte at some time.
fn check(section: &mut Section, text: Vec<u8>) {
    let random = &mut section.random;
    let (address, bit7, salt) = (random.below(255) as u8, random.pick(&[0, 0, 1, 0x80]), random.u32() >> 1);
    section.check(Run { address, text: Hex(text), bit7, salt });
}

/// Plain bytes with these ones at a place among them, and so many behind them.
fn check_at(section: &mut Section, place: usize, bytes: &[u8], behind: usize) {
    let before = plains(&mut section.random, place);
    let behind = plains(&mut section.random, behind);
    check(section, [&before[..], bytes, &behind].concat());
}

// ---- Sections

/// Every length with every address, which makes every checksum.
fn lengths_section(section: &mut Section) {
    for length in 0..=LONGEST {
        for address in 0..255 {
            let text = Hex(plains(&mut section.random, length));
            let (bit7, salt) = (address % 2, section.random.u32() >> 1);
            section.check(Run { address, text, bit7, salt });
        }
    }
}

/// Each special byte at each place of a text of each length: each run before it with each one behind it.
fn places_section(section: &mut Section) {
    for length in 1..=LONGEST {
        for place in 0..length {
            for (byte, _) in STUFFING {
                check_at(section, place, &[byte], length - place - 1);
            }
        }
    }
}

/// Each two special bytes at each distance up to 40, from each of the first places, near the text's end and not.
fn pairs_section(section: &mut Section) {
    for distance in 1..=40 {
        for place in 0..=34 {
            for (first, second) in STUFFING.iter().flat_map(|(first, _)| STUFFING.map(|(second, _)| (*first, second))) {
                let between = plains(&mut section.random, distance - 1);
                let behind = if section.random.one_in(2) { 0..=17 } else { 18..=LONGEST - place - distance - 1 };
                let behind = section.random.between(*behind.start(), *behind.end());
                check_at(section, place, &[&[first], &between[..], &[second]].concat(), behind);
            }
        }
    }
}

/// Special bytes side by side: up to four in every order, each number of them, and texts of nothing else.
fn side_by_side_section(section: &mut Section) {
    for count in 1..=4 {
        for number in 0..1_usize << (2 * count) {
            let bytes: Vec<u8> = (0..count).map(|at| STUFFING[number >> (2 * at) & 3].0).collect();
            for place in (0..=17).chain([31, 32, 33]) {
                for behind in [0, section.random.between(1, 17), section.random.between(18, 200)] {
                    check_at(section, place, &bytes, behind);
                }
            }
        }
    }
    for count in 1..=LONGEST {
        for _ in 0..16 {
            let random = &mut section.random;
            let bytes: Vec<u8> = (0..count).map(|_| special(random)).collect();
            let place = random.below(LONGEST - count + 1);
            let behind = random.below(LONGEST - count - place + 1);
            check_at(section, place, &bytes, behind);
            check(section, bytes);
        }
    }
}

/// Of the bytes one in 2 to one in 128 is special, at any place.
fn shares_section(section: &mut Section) {
    for share in [2, 3, 4, 6, 8, 12, 16, 24, 32, 64, 128] {
        for _ in 0..section.times(12_000) {
            let random = &mut section.random;
            let length = if random.one_in(2) { random.below(LONGEST + 1) } else { random.between(200, LONGEST) };
            let text = (0..length).map(|_| if random.one_in(share) { special(random) } else { plain(random) });
            let text = text.collect();
            check(section, text);
        }
    }
}

/// Bytes that look like special ones when a bit is dropped: each alone for a whole text, beside each special byte at each
/// place of a block, and each two bytes that there are side by side.
fn near_section(section: &mut Section) {
    for byte in NEAR {
        for length in (1..=40).chain(250..=LONGEST) {
            check(section, vec![byte; length]);
        }
        for place in 0..=34 {
            for (special, _) in STUFFING {
                for bytes in [[byte, special, byte], [special, byte, special], [byte, byte, special]] {
                    let behind = section.random.below(40);
                    check_at(section, place, &bytes, behind);
                }
            }
        }
    }
    for first in 1..=255 {
        for second in 1..=255 {
            let (place, behind) = (section.random.below(35), section.random.below(40));
            check_at(section, place, &[first, second], behind);
        }
    }
}

pub fn run(report: &mut Report) {
    report.section("runs: every length without a special byte", lengths_section);
    report.section("runs: a special byte at every place", places_section);
    report.section("runs: two special bytes at every distance", pairs_section);
    report.section("runs: special bytes side by side", side_by_side_section);
    report.section("runs: special bytes in any share", shares_section);
    report.section("runs: bytes near the special ones", near_section);
}
