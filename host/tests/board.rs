//! Document 02 (i), the handover board, once more in plain Rust: written from the document, to be compared with the
//! library.
//!
//! A call makes a map of the table, from bus, address and kind to a place and the polls left, does its work on the map
//! and lays it into the table again. The map is in the order of the list. A refusal ends the call before that.

use crate::interface::{Entry, Listed};
use std::collections::BTreeMap;

pub const PLACES: usize = 32;
pub const SERIAL: u8 = 0;
pub const I2C: u8 = 1;
pub const VALVE: u8 = 1;
pub const CALIBRATION: u8 = 2;

/// The last request of 01's table.
const LAST_REQUEST: u8 = 20;
/// Command 45 set and command 46.
pub const SET_CALIBRATION: u8 = 14;
pub const VOLATILE_CALIBRATION: u8 = 15;

pub const SHUT_VALVE: u16 = 0x3FEF;
pub const NORMAL_CONTROL: u16 = 0x3F6E;
/// The other codes of SFC6, which concern no entry.
pub const OTHER_CODES: [u16; 5] = [0xE102, 0xE000, 0xE17D, 0x3650, 0x365B];

/// Bus, address and kind, whose numbers are in the order of the list: serial 0, I2C 1; valve 1, calibration 2.
type Key = (u8, u8, u8);

/// Where an entry stands, byte 3 of its place, and its polls left.
#[derive(Clone, Copy)]
struct Held {
    place: usize,
    padding: u8,
    left: u16,
}

impl Held {
    fn entry(&self, (bus, address, kind): Key) -> Entry {
        Entry { kind, bus, address, padding: self.padding, left: self.left }
    }
}

pub struct Board(BTreeMap<Key, Held>);

fn is_node(bus: u8, address: u8) -> bool {
    match bus {
        SERIAL => address <= 254,
        I2C => address <= 127,
        _ => false,
    }
}

fn is_key((bus, address, kind): Key) -> bool {
    is_node(bus, address) && [VALVE, CALIBRATION].contains(&kind)
}

/// 12 where a number is out of its range.
fn in_range(is_so: bool) -> Result<(), u8> {
    if is_so {
        Ok(())
    } else {
        Err(12)
    }
}

/// All numbers of a free place are 0; byte 3 is none of them.
fn is_free(place: &Entry) -> bool {
    Entry { padding: 0, ..*place } == Entry::default()
}

impl Board {
    /// With every place free.
    pub fn empty() -> Board {
        Board(BTreeMap::new())
    }

    /// The board that a table is, or 1 or 2.
    fn of(table: &[Entry]) -> Result<Board, u8> {
        if table.len() != PLACES {
            return Err(1);
        }
        let mut held = BTreeMap::new();
        for (place, &entry) in table.iter().enumerate().filter(|(_, entry)| !is_free(entry)) {
            let key = (entry.bus, entry.address, entry.kind);
            let twice = held.insert(key, Held { place, padding: entry.padding, left: entry.left }).is_some();
            if twice || !is_key(key) {
                return Err(2);
            }
        }
        Ok(Board(held))
    }

    /// A place that was free and stays so keeps its byte 3; one that is freed is all zeros.
    fn lay(&self, table: &mut [Entry]) {
        table.iter_mut().filter(|place| !is_free(place)).for_each(|place| *place = Entry::default());
        for (key, held) in &self.0 {
            table[held.place] = held.entry(*key);
        }
    }

    /// The first number that is missing among the sorted places.
    fn lowest_free(&self) -> usize {
        let mut places: Vec<usize> = self.0.values().map(|held| held.place).collect();
        places.sort_unstable();
        places.iter().enumerate().take_while(|(number, place)| number == *place).count()
    }

    fn open(&mut self, key: Key, lease: u32) -> Result<(), u8> {
        let left = u16::try_from(lease).unwrap_or(0);
        in_range(is_key(key) && left > 0)?;
        let place = self.0.get(&key).map_or_else(|| self.lowest_free(), |held| held.place);
        if place == PLACES {
            return Err(19);
        }
        self.0.insert(key, Held { place, padding: 0, left });
        Ok(())
    }

    fn close(&mut self, key: Key) -> Result<(), u8> {
        in_range(is_key(key))?;
        self.0.remove(&key);
        Ok(())
    }

    pub fn poll(&mut self) {
        self.0.values_mut().filter(|held| held.left > 0).for_each(|held| held.left -= 1);
    }

    pub fn reply(&mut self, address: u8, request: u8, refusal: u8, lease: u32) -> Result<(), u8> {
        let key = (SERIAL, address, CALIBRATION);
        match (request, refusal) {
            (VOLATILE_CALIBRATION, 0) => self.open(key, lease),
            (SET_CALIBRATION, 0) => self.close(key),
            (0..=LAST_REQUEST, _) => Ok(()),
            _ => Err(12),
        }
    }

    /// Lays the entries at the start of the room and counts them, or gives 1.
    pub fn list(&self, entries: &mut [Entry]) -> Result<usize, u8> {
        let room = entries.get_mut(..self.0.len()).ok_or(1_u8)?;
        for (place, (key, held)) in room.iter_mut().zip(&self.0) {
            *place = held.entry(*key);
        }
        Ok(self.0.len())
    }
}

/// Does a piece of work on the table's board; the table changes where nothing is refused.
fn on_board(table: &mut [Entry], work: impl FnOnce(&mut Board) -> Result<(), u8>) -> u8 {
    match Board::of(table).and_then(|mut board| work(&mut board).map(|()| board)) {
        Err(refusal) => refusal,
        Ok(board) => {
            board.lay(table);
            0
        }
    }
}

pub fn open(table: &mut [Entry], bus: u8, address: u8, kind: u8, lease: u32) -> u8 {
    on_board(table, |board| board.open((bus, address, kind), lease))
}

pub fn close(table: &mut [Entry], bus: u8, address: u8, kind: u8) -> u8 {
    on_board(table, |board| board.close((bus, address, kind)))
}

pub fn restart(table: &mut [Entry], bus: u8, address: u8) -> u8 {
    on_board(table, |board| {
        in_range(is_node(bus, address))?;
        board.0.retain(|key, _| (key.0, key.1) != (bus, address));
        Ok(())
    })
}

pub fn poll(table: &mut [Entry]) -> u8 {
    on_board(table, |board| {
        board.poll();
        Ok(())
    })
}

pub fn listed(answer: Result<usize, u8>) -> Listed {
    match answer {
        Ok(count) => Listed { refusal: 0, count },
        Err(refusal) => Listed { refusal, count: 0 },
    }
}

pub fn list(table: &[Entry], entries: &mut [Entry]) -> Listed {
    listed(Board::of(table).and_then(|board| board.list(entries)))
}

pub fn reply(table: &mut [Entry], address: u8, request: u8, refusal: u8, lease: u32) -> u8 {
    on_board(table, |board| board.reply(address, request, refusal, lease))
}

pub fn acknowledged(table: &mut [Entry], address: u8, code: u16, lease: u32) -> u8 {
    let key = (I2C, address, VALVE);
    on_board(table, |board| match code {
        SHUT_VALVE => board.open(key, lease),
        NORMAL_CONTROL => board.close(key),
        _ if OTHER_CODES.contains(&code) => Ok(()),
        _ => Err(12),
    })
}
