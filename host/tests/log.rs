//! Document 02 (v), the shift log, once more in plain Rust: written from the document, to be compared with the library.
//!
//! A log is a list of records, and its file follows from the list. A file is read by taking the newest record off its
//! end until nothing is left. A record is added to the list that was read, and the file of the longer list is laid over
//! the old one.

use crate::interface::{Words, Written};

pub const REQUEST_SIDE: u8 = 1;
pub const REPLY_SIDE: u8 = 2;
pub const SILENCE: u8 = 3;

/// The bytes of a record past its body, those that close a file, and the most that its records may take.
pub const TRAILER: usize = 3;
pub const CLOSING: usize = 8;
pub const MOST: usize = 65_000;
/// The numbers of a row of the list: kind, where the body starts, its length.
pub const ROW: usize = 3;

/// A kind and a body.
pub type Record<B> = (u8, B);

/// "A record is its body, then a trailer of one kind byte and a two-byte big-endian body length". The body is one that
/// two bytes can tell the length of, as any within 65,000 bytes is.
pub fn record_bytes(kind: u8, body: &[u8]) -> Vec<u8> {
    let length = u16::try_from(body.len()).expect("a length of two bytes");
    [body, &[kind], &length.to_be_bytes()].concat()
}

/// "The file closes with eight bytes: record count and total record bytes, both u32 big-endian"
pub fn closed(records: &[u8], count: u32) -> Vec<u8> {
    let total = records.len() as u32;
    [records, &count.to_be_bytes(), &total.to_be_bytes()].concat()
}

/// The file of a list of records, oldest first.
pub fn file_of<B: AsRef<[u8]>>(records: &[Record<B>]) -> Vec<u8> {
    let bytes: Vec<u8> = records.iter().flat_map(|(kind, body)| record_bytes(*kind, body.as_ref())).collect();
    closed(&bytes, records.len() as u32)
}

/// "Kind 1 is request-side bytes, 2 reply-side bytes, 3 a silence mark (empty body)."
fn is_record(kind: u8, body: &[u8]) -> bool {
    match kind {
        REQUEST_SIDE | REPLY_SIDE => true,
        SILENCE => body.is_empty(),
        _ => false,
    }
}

/// The bytes before the last n, and these; none where there are fewer.
fn split_end(bytes: &[u8], n: usize) -> Option<(&[u8], &[u8])> {
    bytes.len().checked_sub(n).map(|before| bytes.split_at(before))
}

/// Bytes as a number, the highest first.
fn number(bytes: &[u8]) -> usize {
    bytes.iter().fold(0, |so_far, byte| 256 * so_far + usize::from(*byte))
}

/// The bytes before the newest record, its kind and its body; or "21 for a trailer cut short or pointing before the
/// start, else 22 for an unknown kind or a kind 3 with a body".
fn newest(bytes: &[u8]) -> Result<(&[u8], u8, &[u8]), u8> {
    let (before_trailer, trailer) = split_end(bytes, TRAILER).ok_or(21_u8)?;
    let (older, body) = split_end(before_trailer, number(&trailer[1..])).ok_or(21_u8)?;
    if is_record(trailer[0], body) {
        Ok((older, trailer[0], body))
    } else {
        Err(22)
    }
}

/// The records that tile these bytes, newest first, each after the place of its body; or the refusal of the newest that
/// is faulty.
pub fn records(bytes: &[u8]) -> Result<Vec<(usize, Record<&[u8]>)>, u8> {
    let (mut rest, mut all) = (bytes, Vec::new());
    while !rest.is_empty() {
        let (older, kind, body) = newest(rest)?;
        all.push((older.len(), (kind, body)));
        rest = older;
    }
    Ok(all)
}

/// The records of a file, newest first, or the refusal of the check.
pub fn read(file: &[u8]) -> Result<Vec<(usize, Record<&[u8]>)>, u8> {
    let (before, closing) = split_end(file, CLOSING).ok_or(20_u8)?;
    let (count, total) = (number(&closing[..4]), number(&closing[4..]));
    if total != before.len() || total > MOST {
        return Err(20);
    }
    let all = records(before)?;
    if count == all.len() {
        Ok(all)
    } else {
        Err(23)
    }
}

/// The longer log's file, or the first refusal of the writer's that is not about room.
fn longer(log: &[u8], kind: u8, body: &[u8]) -> Result<Vec<u8>, u8> {
    let mut records: Vec<Record<&[u8]>> = read(log)?.into_iter().rev().map(|(_, record)| record).collect();
    if !is_record(kind, body) {
        return Err(22);
    }
    records.push((kind, body));
    let total: usize = records.iter().map(|(_, body)| body.len() + TRAILER).sum();
    if total > MOST {
        return Err(12);
    }
    Ok(file_of(&records))
}

/// Lays a file at the start of the lent buffer, or gives 1 where it does not fit.
fn lay(file: &[u8], buffer: &mut [u8]) -> Result<usize, u8> {
    buffer.get_mut(..file.len()).ok_or(1_u8)?.copy_from_slice(file);
    Ok(file.len())
}

fn written(answer: Result<usize, u8>) -> Written {
    match answer {
        Ok(length) => Written { refusal: 0, length },
        Err(refusal) => Written { refusal, length: 0 },
    }
}

fn counted(answer: Result<usize, u8>) -> Words {
    match answer {
        Ok(count) => Words { refusal: 0, count },
        Err(refusal) => Words { refusal, count: 0 },
    }
}

pub fn empty(buffer: &mut [u8]) -> Written {
    written(lay(&file_of::<&[u8]>(&[]), buffer))
}

pub fn append(buffer: &mut [u8], length: usize, kind: u8, body: &[u8]) -> Written {
    let file = buffer.get(..length).ok_or(1).and_then(|log| longer(log, kind, body));
    written(file.and_then(|file| lay(&file, buffer)))
}

pub fn check(file: &[u8]) -> Words {
    counted(read(file).map(|records| records.len()))
}

/// As many rows as fit, from the record that so many others are newer than.
pub fn list(file: &[u8], skip: usize, rows: &mut [u16]) -> Words {
    counted(read(file).and_then(|records| {
        let wanted = records.get(skip..).unwrap_or(&[]);
        if !wanted.is_empty() && rows.len() < ROW {
            return Err(1);
        }
        let count = wanted.len().min(rows.len() / ROW);
        for (row, (start, (kind, body))) in rows.chunks_exact_mut(ROW).zip(wanted) {
            row.copy_from_slice(&[u16::from(*kind), *start as u16, body.len() as u16]);
        }
        Ok(count)
    }))
}
