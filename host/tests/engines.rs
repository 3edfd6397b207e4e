//! Both engines of the CRC against the reference. The library exports neither by itself: mfc_crc takes one of them by
//! the length, so that calls of it alone would leave each untried at some lengths.

use crate::generate::some_bytes;
use crate::harness::*;
use crate::interface::Interface;
use crate::library::Library;
use crate::reference::crc;
use crate::vectors::{hex, CRCS, CRC_ROWS};
use crate::{case, salt};
use std::ptr::null;

extern "C" {
    fn engine_plain(start: u8, bytes: *const u8, n: usize) -> u8;
    fn engine_table(start: u8, bytes: *const u8, n: usize) -> u8;
}

type Engine = unsafe extern "C" fn(u8, *const u8, usize) -> u8;

const ENGINES: [(&str, Engine); 2] = [("plain engine", engine_plain), ("table engine", engine_table)];

/// An empty slice goes over as NULL where that is asked for. The slice lives through the call, which is all that an
/// engine asks of a caller.
fn answer(engine: Engine, start: u8, bytes: &[u8], null_for_empty: bool) -> u8 {
    let pointer = if bytes.is_empty() && null_for_empty { null() } else { bytes.as_ptr() };
    unsafe { engine(start, pointer, bytes.len()) }
}

// ---- Cases

case! { EngineCrc { start: u8, bytes: Hex, salt: u32 } }

impl Case for EngineCrc {
    fn fault(&self) -> Option<String> {
        let expected = crc(self.start, &self.bytes.0);
        let before = Lent::holding(&self.bytes.0, self.salt);
        ENGINES.iter().find_map(|(name, engine)| {
            let lent = before.clone();
            let found = answer(*engine, self.start, lent.contents(), self.salt % 2 == 1);
            if found != expected {
                return Some(format!("{name}: expected {expected:02X}, found {found:02X}"));
            }
            before.difference(&lent).map(|place| format!("{name}: the bytes lent to it, {place}"))
        })
    }

    fn calls(&self) -> u64 {
        ENGINES.len() as u64
    }
}

case! {
    /// The strings of a first byte and each second one. All of these are too many to be lent one by one.
    TwoBytes { start: u8, first: u8 }
}

impl Case for TwoBytes {
    fn fault(&self) -> Option<String> {
        (0..=255).find_map(|second| {
            let bytes = [self.first, second];
            let expected = crc(self.start, &bytes);
            ENGINES.iter().find_map(|(name, engine)| {
                let found = answer(*engine, self.start, &bytes, false);
                (found != expected).then(|| format!("{name}, {bytes:02X?}: expected {expected:02X}, found {found:02X}"))
            })
        })
    }

    fn calls(&self) -> u64 {
        256 * ENGINES.len() as u64
    }
}

case! {
    /// mfc_crc beside both engines, without the reference.
    ChosenCrc { start: u8, bytes: Hex, salt: u32 }
}

impl Case for ChosenCrc {
    fn fault(&self) -> Option<String> {
        let lent = Lent::holding(&self.bytes.0, self.salt);
        let null_for_empty = self.salt % 2 == 1;
        let chosen = Library { null_for_empty }.crc(self.start, lent.contents());
        ENGINES.iter().find_map(|(name, engine)| {
            let found = answer(*engine, self.start, lent.contents(), null_for_empty);
            (found != chosen).then(|| format!("mfc_crc gives {chosen:02X}, the {name} {found:02X}"))
        })
    }

    fn calls(&self) -> u64 {
        1 + ENGINES.len() as u64
    }
}

// ---- Sections

/// The addresses of a lent slice come back to the same alignment with every eighth salt; the odd ones are odd.
const PLACES: u32 = 8;

const LONG_LENGTHS: [usize; 6] = [601, 4095, 4096, 4097, 65_535, 65_536];

/// A start value and a string of this length.
fn any_string(section: &mut Section, length: usize) -> (u8, Hex) {
    (section.random.byte(), Hex(some_bytes(&mut section.random, length)))
}

fn vectors_section(section: &mut Section) {
    for (name, engine) in ENGINES {
        for (text, from_00, from_ff) in CRCS {
            let bytes = hex(text);
            let found = (answer(engine, 0x00, &bytes, false), answer(engine, 0xFF, &bytes, false));
            section.expect(&format!("{name}: the CRCs of {text}"), (*from_00, *from_ff), found);
        }
        for (first, row) in CRC_ROWS {
            for (offset, expected) in (0..).zip(hex(row)) {
                let found = answer(engine, 0x00, &[first + offset], false);
                section.expect(&format!("{name}: the CRC of a byte"), expected, found);
            }
        }
    }
}

fn one_byte_section(section: &mut Section) {
    for start in 0..=255 {
        for salt in 0..2 {
            section.check(EngineCrc { start, bytes: Hex(vec![]), salt });
        }
        for byte in 0..=255 {
            section.check(EngineCrc { start, bytes: Hex(vec![byte]), salt: u32::from(byte) });
        }
    }
}

fn two_bytes_section(section: &mut Section) {
    for start in 0..=255 {
        for first in 0..=255 {
            section.check(TwoBytes { start, first });
        }
    }
}

fn short_section(section: &mut Section) {
    for length in 0..=300 {
        for salt in 0..PLACES {
            let (start, bytes) = any_string(section, length);
            section.check(EngineCrc { start, bytes, salt });
        }
    }
    for _ in 0..section.times(100_000) {
        let length = section.random.between(0, 300);
        let ((start, bytes), salt) = (any_string(section, length), salt(section));
        section.check(EngineCrc { start, bytes, salt });
    }
}

fn long_section(section: &mut Section) {
    for length in LONG_LENGTHS {
        for salt in 0..PLACES {
            let (start, bytes) = any_string(section, length);
            section.check(EngineCrc { start, bytes, salt });
        }
    }
    for _ in 0..section.times(300) {
        let length = section.random.between(301, 65_536);
        let ((start, bytes), salt) = (any_string(section, length), salt(section));
        section.check(EngineCrc { start, bytes, salt });
    }
}

fn chosen_section(section: &mut Section) {
    for length in (0..=600).chain(LONG_LENGTHS) {
        for salt in 0..PLACES {
            let (start, bytes) = any_string(section, length);
            section.check(ChosenCrc { start, bytes, salt });
        }
    }
}

pub fn run(report: &mut Report) {
    report.section("engines: vectors", vectors_section);
    report.section("engines: no byte and every single one", one_byte_section);
    report.section("engines: every two bytes", two_bytes_section);
    report.section("engines: up to 300 bytes", short_section);
    report.section("engines: up to 65,536 bytes", long_section);
    report.section("engines: mfc_crc gives the same", chosen_section);
}
