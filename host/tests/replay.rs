//! Document 02 (vi), the replay, once more in plain Rust: written from the document, to be compared with the library.
//!
//! A log is two streams, one for each side, and its marks are in both. What a receiver yields is read off the whole
//! stream of its side. Each frame then comes where its closing 7E stands in the log, and each poll where its mark does.

use crate::board::{listed, Board};
use crate::interface::{Entry, Listed};
use crate::log::{self, Record, REPLY_SIDE, REQUEST_SIDE, SILENCE};
use crate::reference::{items_at, read_reply, read_request, Event, Item, Kind};

/// What concerns the board or the latest request.
enum Turn {
    Request(Vec<u8>),
    Reply(Vec<u8>),
    Poll,
}

/// "feeds kind 1 to a request receiver and kind 2 to a reply receiver, gives a mark to both for kind 3": the stream of
/// a side, and for each event the place of its record.
fn stream(records: &[Record<&[u8]>], side: u8) -> (Vec<Event>, Vec<usize>) {
    let (mut events, mut places) = (Vec::new(), Vec::new());
    for (place, (kind, body)) in records.iter().enumerate() {
        if *kind == side {
            events.extend(body.iter().map(|&byte| Event::Byte(byte)));
        } else if *kind == SILENCE {
            events.push(Event::Mark);
        }
        places.resize(events.len(), place);
    }
    (events, places)
}

/// "What each receiver yields, itself not shown, is what demand 3's list says for its side's joined bytes and marks."
/// A refused stretch is no frame. Each frame after the place of the record that completes it.
fn frames(records: &[Record<&[u8]>], side: u8, kind: Kind) -> Vec<(usize, Vec<u8>)> {
    let (events, places) = stream(records, side);
    let frame = |(at, item): (usize, Item)| match item {
        Item::Frame(body) => Some((places[at], body)),
        Item::Refused(..) => None,
    };
    items_at(kind, &events).into_iter().filter_map(frame).collect()
}

/// "The replay takes the records oldest first". "Polls are one per silence mark." No record has turns of two sorts, and
/// those of one stay in their order.
fn turns(records: &[Record<&[u8]>]) -> Vec<Turn> {
    let requests = frames(records, REQUEST_SIDE, Kind::Request).into_iter();
    let replies = frames(records, REPLY_SIDE, Kind::Reply).into_iter();
    let marks = (0..records.len()).filter(|&place| records[place].0 == SILENCE);
    let mut all: Vec<(usize, Turn)> = requests.map(|(place, body)| (place, Turn::Request(body))).collect();
    all.extend(replies.map(|(place, body)| (place, Turn::Reply(body))));
    all.extend(marks.map(|place| (place, Turn::Poll)));
    all.sort_by_key(|(place, _)| *place);
    all.into_iter().map(|(_, turn)| turn).collect()
}

/// "A reply frame is read against the latest request frame (with none, or one refused as a request, it is skipped);
/// what is accepted goes to an empty board of its own with one lease that the caller names": the board at the log's
/// end, "or 19 instead if an opening met it".
fn board_after(turns: &[Turn], lease: u32) -> Result<Board, u8> {
    let mut board = Board::empty();
    let mut latest: Option<&Vec<u8>> = None;
    for turn in turns {
        match turn {
            Turn::Request(body) => latest = Some(body),
            Turn::Poll => board.poll(),
            Turn::Reply(body) => {
                let asked = latest.map(|request| read_request(request)).filter(|request| request.refusal == 0);
                if let Some(asked) = asked {
                    let read = read_reply(asked.address, asked.request, asked.value, body);
                    board.reply(asked.address, asked.request, read.refusal, lease)?;
                }
            }
        }
    }
    Ok(board)
}

/// 12 for the lease "before the log's check"; "A log that fails its check is refused before anything is replayed"; 19;
/// and 1 of the list.
fn entries_after(file: &[u8], lease: u32, entries: &mut [Entry]) -> Result<usize, u8> {
    if !(1..=65_535).contains(&lease) {
        return Err(12);
    }
    let newest_first = log::read(file)?;
    let oldest_first: Vec<Record<&[u8]>> = newest_first.into_iter().rev().map(|(_, record)| record).collect();
    board_after(&turns(&oldest_first), lease)?.list(entries)
}

pub fn replay(file: &[u8], lease: u32, entries: &mut [Entry]) -> Listed {
    listed(entries_after(file, lease, entries))
}
