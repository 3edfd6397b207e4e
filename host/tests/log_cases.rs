//! Calls on a log's file: one on any bytes, records added one after another, and the list in windows.

use crate::cases::same;
use crate::harness::*;
use crate::interface::*;
use crate::library::Library;
use crate::log::{closed, file_of, records, Record, CLOSING, ROW, SILENCE};
use crate::reference::Reference;
use crate::{call, case};
use std::fmt::{self, Debug};

// ---- Files

/// A log's file: made smaller as it is, with its closing bytes put right again, and by whole records.
#[derive(Clone)]
pub struct File(pub Vec<u8>);

impl Debug for File {
    fn fmt(&self, f: &mut fmt::Formatter) -> fmt::Result {
        Hex(self.0.clone()).fmt(f)
    }
}

/// The same bytes before the closing eight, with the total put right; where they are records, with the count too.
pub fn put_right(file: &[u8]) -> Vec<Vec<u8>> {
    let (before, closing) = file.split_at(file.len().saturating_sub(CLOSING));
    let told = closing.get(..4).map(|four| u32::from_be_bytes([four[0], four[1], four[2], four[3]]));
    let counted = records(before).ok().map(|all| all.len() as u32);
    told.into_iter().chain(counted).map(|count| closed(before, count)).collect()
}

/// Neighbours of one kind in one record; each mark has its own.
pub fn joined<B: AsRef<[u8]>>(records: &[Record<B>]) -> Vec<Record<Vec<u8>>> {
    let mut all: Vec<Record<Vec<u8>>> = Vec::new();
    for (kind, bytes) in records {
        match all.last_mut() {
            Some((last, body)) if *last == *kind && *kind != SILENCE => body.extend(bytes.as_ref()),
            _ => all.push((*kind, bytes.as_ref().to_vec())),
        }
    }
    all
}

/// A good file with its records joined, and without some of them.
fn fewer_records(file: &[u8]) -> Vec<Vec<u8>> {
    let before = &file[..file.len().saturating_sub(CLOSING)];
    let newest_first = records(before).unwrap_or_default();
    let all: Vec<Record<&[u8]>> = newest_first.into_iter().rev().map(|(_, record)| record).collect();
    let without = without_parts(&all);
    let mut files = vec![file_of(&joined(&all))];
    files.extend(without.iter().map(|fewer| file_of(fewer)));
    files
}

impl Smaller for File {
    fn smaller(&self) -> Vec<File> {
        let plain: Vec<Vec<u8>> = Hex(self.0.clone()).smaller().into_iter().map(|hex| hex.0).collect();
        let right = fewer_records(&self.0).into_iter().chain(plain.iter().flat_map(|file| put_right(file)));
        // What is put right must still come nearer to the smallest: shorter, or of a smaller sum before its last eight.
        let size = |file: &[u8]| {
            let before = &file[..file.len().saturating_sub(CLOSING)];
            (file.len(), before.iter().map(|&byte| usize::from(byte)).sum::<usize>())
        };
        let nearer: Vec<Vec<u8>> = right.filter(|file| size(file) < size(&self.0)).collect();
        nearer.into_iter().chain(plain).map(File).collect()
    }
}

// ---- Single calls

call! { LogEmpty { room: usize } -> Written, |self, on| {
    let mut file = Lent::room(self.room, self.salt);
    outcome(on.log_empty(file.slice()), vec![file])
} }

call! { LogCheck { file: File } -> Words, |self, on| {
    let file = Lent::holding(&self.file.0, self.salt);
    outcome(on.log_check(file.contents()), vec![file])
} }

call! {
    /// A list in a room of so many numbers.
    LogList { file: File, skip: usize, room: usize } -> Words, |self, on| {
        let file = Lent::holding(&self.file.0, self.salt);
        let mut rows = Lent::room(self.room, self.salt + 1);
        let answer = on.log_list(file.contents(), self.skip, rows.slice());
        Outcome { answer, lent: vec![file], words: vec![rows] }
    }
}

call! {
    /// A record for the log at the start of a buffer, other bytes behind it. The length that is given is the log's, or
    /// so many past the buffer.
    LogAppend { file: File, behind: Hex, past: usize, kind: u8, body: Hex } -> Written, |self, on| {
        let mut buffer = Lent::holding(&[&self.file.0[..], &self.behind.0[..]].concat(), self.salt);
        let body = Lent::holding(&self.body.0, self.salt + 1);
        let whole = self.file.0.len() + self.behind.0.len();
        let length = if self.past > 0 { whole.saturating_add(self.past) } else { self.file.0.len() };
        let written = on.log_append(buffer.slice(), length, self.kind, body.contents());
        outcome(written, vec![buffer, body])
    }
}

// ---- What was added is listed

case! {
    Offer { kind: u8, body: Hex }
}

case! {
    /// Records offered one after another, from the empty log on, in one buffer.
    Offers { offers: Vec<Offer>, room: usize, salt: u32 }
}

/// A buffer that the library is lent from call to call, and what the reference says of it.
struct Lending {
    library: Library,
    expected: Lent<u8>,
    found: Lent<u8>,
    length: usize,
}

impl Lending {
    /// Makes a call on both and says what differs, in the answer or the buffer; else whether the record was taken.
    fn give(&mut self, call: impl Fn(&dyn Interface, &mut [u8]) -> Written) -> Result<bool, String> {
        let expected = call(&Reference, self.expected.slice());
        let found = call(&self.library, self.found.slice());
        same("the answer is", &expected, &found)?;
        if let Some(text) = self.expected.difference(&self.found) {
            return Err(format!("buffer, {text}"));
        }
        if found.refusal == 0 {
            self.length = found.length;
        }
        Ok(found.refusal == 0)
    }
}

impl Offers {
    fn run(&self) -> Result<(), String> {
        let library = Library { null_for_empty: self.salt % 2 == 1 };
        let expected = Lent::room(self.room, self.salt);
        let mut lending = Lending { library, found: expected.clone(), expected, length: 0 };
        if !lending.give(|on, file| on.log_empty(file))? {
            return Ok(());
        }
        let mut taken: Vec<Record<&[u8]>> = Vec::new();
        for (at, Offer { kind, body }) in self.offers.iter().enumerate() {
            let length = lending.length;
            let given = lending.give(|on, file| on.log_append(file, length, *kind, &body.0));
            if given.map_err(|text| format!("record {at}: {text}"))? {
                taken.push((*kind, &body.0[..]));
            }
        }
        let file = &lending.found.contents()[..lending.length];
        read_back(&lending.library, file, &taken)
    }
}

/// By the records alone, and not by the reference's reader: the check counts them, and the list shows each of them
/// once, newest first, all of its bytes where the row says.
fn read_back(library: &Library, file: &[u8], taken: &[Record<&[u8]>]) -> Result<(), String> {
    let all = Words { refusal: 0, count: taken.len() };
    same("the check answers", &all, &library.log_check(file))?;
    let mut rows = vec![0xFFFF; ROW * taken.len() + ROW];
    same("the list answers", &all, &library.log_list(file, 0, &mut rows))?;
    for (row, (kind, body)) in rows.chunks(ROW).zip(taken.iter().rev()) {
        let (start, length) = (usize::from(row[1]), usize::from(row[2]));
        same("a listed kind is", &u16::from(*kind), &row[0])?;
        same("a listed body is", &Some(*body), &file.get(start..start + length))?;
    }
    Ok(())
}

impl Case for Offers {
    fn calls(&self) -> u64 {
        3 + self.offers.len() as u64
    }

    fn fault(&self) -> Option<String> {
        self.run().err()
    }
}

// ---- The list in windows

case! {
    /// A list taken in windows of so many numbers, of one row at least, each from where the last one ended.
    Windows { file: File, room: usize, salt: u32 }
}

impl Windows {
    fn room(&self) -> usize {
        self.room.max(ROW)
    }

    /// The windows put together are the list in one piece; the window after them is empty.
    fn run(&self) -> Result<(), String> {
        let library = Library { null_for_empty: self.salt % 2 == 1 };
        let file = &self.file.0[..];
        let mut whole = vec![0; file.len() + ROW];
        let expected = Reference.log_list(file, 0, &mut whole);
        let (mut skip, mut together) = (0, Vec::new());
        while skip < expected.count {
            let mut rows = vec![0; self.room()];
            let listed = library.log_list(file, skip, &mut rows);
            let rows = rows.get(..ROW * listed.count).filter(|rows| !rows.is_empty());
            together.extend_from_slice(rows.ok_or(format!("window at {skip}: {listed:?}"))?);
            skip += listed.count;
        }
        same("the windows together are", &whole[..ROW * expected.count].to_vec(), &together)?;
        let after = library.log_list(file, skip, &mut vec![0; self.room()]);
        same("the window after them answers", &Words { refusal: expected.refusal, count: 0 }, &after)
    }
}

impl Case for Windows {
    fn calls(&self) -> u64 {
        1 + Reference.log_check(&self.file.0).count.div_ceil(self.room() / ROW) as u64
    }

    fn fault(&self) -> Option<String> {
        self.run().err()
    }
}
