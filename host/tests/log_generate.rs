//! Random logs, good and damaged, and records for them, bent towards the places where implementations differ.

use crate::generate;
use crate::harness::{Hex, Random};
use crate::log::*;
use crate::log_cases::{put_right, Offer};

// ---- Good logs

/// Mostly short; at times around the end of a length's low byte, or none at all.
fn body_length(random: &mut Random) -> usize {
    match random.below(16) {
        0..=3 => 0,
        4 => random.between(253, 259),
        5 => random.below(600),
        _ => random.below(9),
    }
}

/// Bytes that could be trailers themselves, or any.
pub fn body(random: &mut Random, n: usize) -> Vec<u8> {
    match random.below(2) {
        0 => (0..n).map(|_| random.pick(&[0, 0, 1, 2, 3, 4])).collect(),
        _ => generate::some_bytes(random, n),
    }
}

fn record(random: &mut Random) -> Record<Vec<u8>> {
    match random.below(5) {
        0 => (SILENCE, Vec::new()),
        _ => {
            let n = body_length(random);
            (random.pick(&[REQUEST_SIDE, REPLY_SIDE]), body(random, n))
        }
    }
}

/// So many good records.
pub fn records_of(random: &mut Random, n: usize) -> Vec<Record<Vec<u8>>> {
    (0..n).map(|_| record(random)).collect()
}

pub fn good_file(random: &mut Random, most: usize) -> Vec<u8> {
    let n = random.below(most + 1);
    file_of(&records_of(random, n))
}

/// A good log whose records take so many bytes, in bodies of about half the widest to the widest. No record takes one
/// byte or two.
pub fn file_of_total(random: &mut Random, total: usize, widest: usize) -> Vec<u8> {
    let (mut all, mut left) = (Vec::new(), total);
    while left > 0 {
        // The last one takes all that is left.
        let is_last = left < 2 * TRAILER + widest;
        let n = if is_last { left - TRAILER } else { random.between(widest / 2, widest) };
        all.push((random.pick(&[REQUEST_SIDE, REPLY_SIDE]), body(random, n)));
        left -= n + TRAILER;
    }
    file_of(&all)
}

// ---- Damage

/// Another kind, or another length: one off, far off, or its two bytes the other way round.
fn damage_trailer(random: &mut Random, record: &mut [u8]) {
    let at = record.len() - TRAILER;
    let trailer = &mut record[at..];
    match random.below(6) {
        0 => trailer[0] = random.pick(&[0, 3, 4, 255]),
        1 => trailer[0] = random.byte(),
        2 => trailer[1] = random.pick(&[1, 2, 0x80, 0xFF]),
        3 => trailer[2] = trailer[2].wrapping_add(random.pick(&[1, 2, 3, 253, 254, 255])),
        4 => trailer[2] = random.byte(),
        _ => trailer.swap(1, 2),
    }
}

/// One number of the closing bytes, by a little, by a lot, or any.
fn damage_closing(random: &mut Random, file: &mut [u8]) {
    if let Some(at) = file.len().checked_sub(random.pick(&[4, 8])) {
        let four = [file[at], file[at + 1], file[at + 2], file[at + 3]];
        let changed = match random.below(4) {
            0 => u32::from_be_bytes(four).wrapping_add(random.pick(&[1, 2, 3, 8, u32::MAX, u32::MAX - 2])),
            1 => u32::from_be_bytes(four) ^ 1 << random.below(32),
            2 => u32::from_le_bytes(four),
            _ => random.u32() >> random.below(32),
        };
        file[at..at + 4].copy_from_slice(&changed.to_be_bytes());
    }
}

/// One damage to the bytes, as `generate::changed` makes it, or bytes cut off the front.
fn damage_bytes(random: &mut Random, file: &[u8]) -> Vec<u8> {
    match random.below(6) {
        0 => file[random.below(file.len() + 1)..].to_vec(),
        _ => generate::changed(random, file),
    }
}

/// A file of good records and a few damages.
pub fn damaged_file(random: &mut Random, most: usize) -> Vec<u8> {
    let n = random.between(1, most);
    let list = records_of(random, n);
    damaged(random, &list)
}

/// The file of these records, one at least, and a few damages, its closing bytes often put right again.
pub fn damaged(random: &mut Random, list: &[Record<Vec<u8>>]) -> Vec<u8> {
    let n = list.len();
    let mut parts: Vec<Vec<u8>> = list.iter().map(|(kind, body)| record_bytes(*kind, body)).collect();
    let damages = random.pick(&[1, 1, 1, 2, 3]);
    let of_trailers = random.below(damages + 1);
    for _ in 0..of_trailers {
        let at = random.below(n);
        damage_trailer(random, &mut parts[at]);
    }
    let mut file = closed(&parts.concat(), n as u32);
    for _ in of_trailers..damages {
        match random.below(3) {
            0 => damage_closing(random, &mut file),
            _ => file = damage_bytes(random, &file),
        }
    }
    if random.one_in(2) {
        let right = put_right(&file);
        file = if right.is_empty() { file } else { right[random.below(right.len())].clone() };
    }
    file
}

/// Any few bytes that may be trailers, and mostly a right total.
fn any_file(random: &mut Random) -> Vec<u8> {
    let n = random.below(40);
    let bytes: Vec<u8> = (0..n).map(|_| random.pick(&[0, 0, 0, 0, 1, 1, 2, 3, 4, 5, 9, 255])).collect();
    let count = match records(&bytes) {
        Ok(all) if !random.one_in(4) => all.len() as u32,
        _ => random.below(8) as u32,
    };
    let file = closed(&bytes, count);
    if random.one_in(8) {
        generate::changed(random, &file)
    } else {
        file
    }
}

/// Good, damaged, or any bytes.
pub fn file(random: &mut Random) -> Vec<u8> {
    match random.below(8) {
        0..=4 => good_file(random, 10),
        5 | 6 => damaged_file(random, 8),
        _ => any_file(random),
    }
}

// ---- Records to be added

fn kind(random: &mut Random) -> u8 {
    match random.below(12) {
        0 => random.pick(&[0, 4, 5, 128, 255]),
        1 => random.byte(),
        2 | 3 => SILENCE,
        _ => random.pick(&[REQUEST_SIDE, REPLY_SIDE]),
    }
}

/// Mostly one that is taken; a silence mark now and then has a body.
pub fn offer(random: &mut Random) -> Offer {
    let kind = kind(random);
    let n = if kind == SILENCE && !random.one_in(6) { 0 } else { body_length(random) };
    Offer { kind, body: Hex(body(random, n)) }
}
