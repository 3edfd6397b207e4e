//! Replays of a log's file: one call beside the reference, and beside the other calls of the library.

use crate::board::{listed, PLACES};
use crate::case;
use crate::cases::same;
use crate::harness::*;
use crate::interface::*;
use crate::library::Library;
use crate::log::{REPLY_SIDE, REQUEST_SIDE, ROW};
use crate::log_cases::File;
use crate::reference::{Reference, RECORD, STORE};

case! {
    /// One replay of any bytes, in a room of so many places.
    Replay { file: File, lease: u32, room: usize, salt: u32 }
}

/// What a replay leaves of what was lent to it.
fn same_lent<T: Element>(what: &str, expected: &Lent<T>, found: &Lent<T>) -> Result<(), String> {
    expected.difference(found).map_or(Ok(()), |text| Err(format!("{what}, {text}")))
}

impl Replay {
    fn run(&self) -> Result<(), String> {
        let library = Library { null_for_empty: self.salt % 2 == 1 };
        let file = Lent::holding(&self.file.0, self.salt);
        let lent_file = file.clone();
        let mut expected_entries = Lent::room(self.room, self.salt.wrapping_add(1));
        let mut entries = expected_entries.clone();
        let expected = Reference.log_replay(&self.file.0, self.lease, expected_entries.slice());
        let found = library.log_replay(lent_file.contents(), self.lease, entries.slice());
        same("the answer is", &expected, &found)?;
        same_lent("entries", &expected_entries, &entries)?;
        same_lent("file", &file, &lent_file)
    }
}

impl Case for Replay {
    fn fault(&self) -> Option<String> {
        self.run().err()
    }
}

case! {
    /// By the library alone: a replay with a lease in range is what its receivers, its readers and its board make of
    /// the records, one call after another.
    ByCalls { file: File, lease: u32, room: usize, salt: u32 }
}

/// The bodies that a receiver yields for the bytes of a record.
fn bodies(on: &dyn Interface, receiver: &mut [u8], bytes: &[u8]) -> Vec<Vec<u8>> {
    let (mut frame, mut all, mut rest) = ([0; STORE], Vec::new(), bytes);
    while !rest.is_empty() {
        let fed = on.feed(receiver, 0, rest, &mut frame);
        if fed.frame_length > 0 {
            all.push(frame[..fed.frame_length].to_vec());
        }
        if fed.taken == 0 {
            // No receiver does that, and this loop must end.
            break;
        }
        rest = &rest[fed.taken..];
    }
    all
}

fn by_calls(on: &dyn Interface, file: &[u8], lease: u32, entries: &mut [Entry]) -> Listed {
    let mut rows = vec![0; file.len() + ROW];
    let records = on.log_list(file, 0, &mut rows);
    if records.refusal != 0 {
        return listed(Err(records.refusal));
    }
    let (mut requests, mut replies) = ([0; RECORD], [0; RECORD]);
    assert_eq!((on.receiver_fresh(0, &mut requests), on.receiver_fresh(1, &mut replies)), (0, 0));
    let mut table = [Entry::default(); PLACES];
    let mut latest = None;
    for row in rows[..ROW * records.count].chunks(ROW).rev() {
        let bytes = &file[usize::from(row[1])..usize::from(row[1] + row[2])];
        if row[0] == u16::from(REQUEST_SIDE) {
            for body in bodies(on, &mut requests, bytes) {
                latest = Some(on.read_request(&body));
            }
        } else if row[0] == u16::from(REPLY_SIDE) {
            for body in bodies(on, &mut replies, bytes) {
                if let Some(Request { refusal: 0, address, request, value }) = latest {
                    let read = on.read_reply(address, request, value, &body).refusal;
                    let refusal = on.board_reply(&mut table, address, request, read, lease);
                    if refusal != 0 {
                        return listed(Err(refusal));
                    }
                }
            }
        } else {
            for receiver in [&mut requests, &mut replies] {
                on.feed(receiver, 1, &[], &mut [0; STORE]);
            }
            on.board_poll(&mut table);
        }
    }
    on.board_list(&table, entries)
}

impl ByCalls {
    fn run(&self) -> Result<(), String> {
        let library = Library { null_for_empty: self.salt % 2 == 1 };
        let mut by_calls_entries = Lent::room(self.room, self.salt);
        let mut entries = by_calls_entries.clone();
        let found = library.log_replay(&self.file.0, self.lease, entries.slice());
        let one_by_one = by_calls(&library, &self.file.0, self.lease, by_calls_entries.slice());
        same("the answer is", &one_by_one, &found)?;
        same_lent("entries", &by_calls_entries, &entries)
    }
}

impl Case for ByCalls {
    fn fault(&self) -> Option<String> {
        // Made smaller, a lease of 0 would be refused before any call.
        if self.lease == 0 {
            return None;
        }
        self.run().err()
    }
}
