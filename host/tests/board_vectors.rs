//! Document 02 (i), the handover board, sentence by sentence: known answers, each tried on the reference and on the
//! library.

use crate::board::*;
use crate::board_cases::{free, Order};
use crate::harness::{Report, Section};
use crate::interface::*;
use crate::vectors::{body_of, both};

/// An entry at its place.
type Placed = (usize, Entry);

const fn at(place: usize, bus: u8, address: u8, kind: u8, left: u16) -> Placed {
    (place, Entry { kind, bus, address, padding: 0, left })
}

const fn open(bus: u8, address: u8, kind: u8, lease: u32) -> Order {
    Order::Open { bus, address, kind, lease }
}

const fn close(bus: u8, address: u8, kind: u8) -> Order {
    Order::Close { bus, address, kind }
}

const fn restart(bus: u8, address: u8) -> Order {
    Order::Restart { bus, address }
}

const POLL: Order = Order::Poll {};

const fn list(room: usize) -> Order {
    Order::List { room }
}

const fn reply(address: u8, request: u8, refusal: u8, lease: u32) -> Order {
    Order::Reply { address, request, refusal, lease }
}

const fn acknowledged(address: u8, code: u16, lease: u32) -> Order {
    Order::Acknowledged { address, code, lease }
}

/// A table of so many places, free but for these; byte 3 of each place holds something.
fn table(size: usize, placed: &[Placed]) -> Vec<Entry> {
    let mut table: Vec<Entry> = (0..size).map(|place| free(place as u8 ^ 0xA5)).collect();
    for (place, entry) in placed {
        table[*place] = Entry { padding: table[*place].padding, ..*entry };
    }
    table
}

/// What a table holds.
fn placed(table: &[Entry]) -> Vec<Placed> {
    let numbers = table.iter().map(|entry| Entry { padding: 0, ..*entry });
    numbers.enumerate().filter(|(_, entry)| *entry != Entry::default()).collect()
}

fn give(on: &dyn Interface, table: &mut [Entry], order: &Order) -> u8 {
    order.given(on, table, &mut vec![Entry::default(); order.room()]).refusal
}

// ---- What orders do

/// What is said; orders from the empty table, all of them served; the entries that are held then.
#[rustfmt::skip]
const ORDERS: &[(&str, &[Order], &[Placed])] = &[
    // "one per valve or temporary calibration opened and not yet closed"
    ("an entry for each kind", &[open(I2C, 5, VALVE, 9), open(I2C, 5, CALIBRATION, 8)],
     &[at(0, I2C, 5, VALVE, 9), at(1, I2C, 5, CALIBRATION, 8)]),
    ("closed", &[open(I2C, 5, VALVE, 9), close(I2C, 5, VALVE)], &[]),
    // "A node is a bus (serial or I2C) and an address (0 to 254, 0 to 127); the table admits both kinds on either bus."
    ("an address on either bus", &[open(SERIAL, 5, VALVE, 9), open(I2C, 5, VALVE, 8)],
     &[at(0, SERIAL, 5, VALVE, 9), at(1, I2C, 5, VALVE, 8)]),
    ("the first and the last address",
     &[open(SERIAL, 0, VALVE, 1), open(SERIAL, 254, VALVE, 2), open(I2C, 0, VALVE, 3), open(I2C, 127, VALVE, 4)],
     &[at(0, SERIAL, 0, VALVE, 1), at(1, SERIAL, 254, VALVE, 2), at(2, I2C, 0, VALVE, 3), at(3, I2C, 127, VALVE, 4)]),
    ("both kinds on serial", &[open(SERIAL, 1, VALVE, 1), open(SERIAL, 1, CALIBRATION, 2)],
     &[at(0, SERIAL, 1, VALVE, 1), at(1, SERIAL, 1, CALIBRATION, 2)]),
    ("both kinds on I2C", &[open(I2C, 1, VALVE, 3), open(I2C, 1, CALIBRATION, 4)],
     &[at(0, I2C, 1, VALVE, 3), at(1, I2C, 1, CALIBRATION, 4)]),
    // "An acknowledged 3FEF opens its valve entry, an accepted reply to command 46 its calibration entry, with a lease
    // of 1 to 65,535 polls."
    ("3FEF", &[acknowledged(5, 0x3FEF, 9)], &[at(0, I2C, 5, VALVE, 9)]),
    ("46", &[reply(5, 15, 0, 9)], &[at(0, SERIAL, 5, CALIBRATION, 9)]),
    ("46, not accepted", &[reply(5, 15, 15, 9), reply(5, 15, 14, 9), reply(5, 15, 1, 9), reply(5, 15, 255, 9)], &[]),
    ("the shortest lease", &[open(I2C, 5, VALVE, 1), acknowledged(6, 0x3FEF, 1), reply(7, 15, 0, 1)],
     &[at(0, I2C, 5, VALVE, 1), at(1, I2C, 6, VALVE, 1), at(2, SERIAL, 7, CALIBRATION, 1)]),
    ("the longest lease", &[open(I2C, 5, VALVE, 65_535), acknowledged(6, 0x3FEF, 65_535), reply(7, 15, 0, 65_535)],
     &[at(0, I2C, 5, VALVE, 65_535), at(1, I2C, 6, VALVE, 65_535), at(2, SERIAL, 7, CALIBRATION, 65_535)]),
    // "An acknowledged 3F6E closes the first, an accepted 45 set the second, a restart both; an address set (90) moves
    // none; closing what isn't there does nothing."
    ("3F6E", &[acknowledged(5, 0x3FEF, 9), reply(5, 15, 0, 9), acknowledged(5, 0x3F6E, 9)],
     &[at(1, SERIAL, 5, CALIBRATION, 9)]),
    ("3F6E closes one entry",
     &[open(I2C, 5, CALIBRATION, 1), open(SERIAL, 5, VALVE, 2), open(I2C, 6, VALVE, 3), acknowledged(5, 0x3FEF, 4),
       acknowledged(5, 0x3F6E, 4)],
     &[at(0, I2C, 5, CALIBRATION, 1), at(1, SERIAL, 5, VALVE, 2), at(2, I2C, 6, VALVE, 3)]),
    ("45 set", &[acknowledged(5, 0x3FEF, 9), reply(5, 15, 0, 9), reply(5, 14, 0, 9)], &[at(0, I2C, 5, VALVE, 9)]),
    ("45 set closes one entry",
     &[open(SERIAL, 5, VALVE, 1), open(I2C, 5, CALIBRATION, 2), open(SERIAL, 6, CALIBRATION, 3), reply(5, 15, 0, 4),
       reply(5, 14, 0, 4)],
     &[at(0, SERIAL, 5, VALVE, 1), at(1, I2C, 5, CALIBRATION, 2), at(2, SERIAL, 6, CALIBRATION, 3)]),
    ("45 set, not accepted", &[reply(5, 15, 0, 9), reply(5, 14, 15, 9), reply(5, 14, 14, 9)],
     &[at(0, SERIAL, 5, CALIBRATION, 9)]),
    ("45 get", &[reply(5, 15, 0, 9), reply(5, 13, 0, 9)], &[at(0, SERIAL, 5, CALIBRATION, 9)]),
    ("a restart closes both, of one node",
     &[open(I2C, 5, VALVE, 1), open(SERIAL, 5, VALVE, 2), open(I2C, 5, CALIBRATION, 3), open(I2C, 6, VALVE, 4),
       restart(I2C, 5)],
     &[at(1, SERIAL, 5, VALVE, 2), at(3, I2C, 6, VALVE, 4)]),
    ("a restart of a node with one entry", &[open(SERIAL, 254, CALIBRATION, 1), restart(SERIAL, 254)], &[]),
    ("an address set (90) of the node at 5 to 6", &[reply(5, 15, 0, 9), reply(5, 17, 0, 9), reply(6, 14, 0, 9)],
     &[at(0, SERIAL, 5, CALIBRATION, 9)]),
    ("closing what isn't there, nothing held",
     &[close(I2C, 5, VALVE), restart(SERIAL, 5), reply(5, 14, 0, 9), acknowledged(5, 0x3F6E, 9)], &[]),
    ("closing what isn't there, near to what is",
     &[open(I2C, 5, VALVE, 9), close(I2C, 5, CALIBRATION), close(SERIAL, 5, VALVE), close(I2C, 4, VALVE),
       restart(SERIAL, 5), restart(I2C, 6), reply(5, 14, 0, 9), acknowledged(6, 0x3F6E, 9)],
     &[at(0, I2C, 5, VALVE, 9)]),
    ("closing twice", &[open(I2C, 5, VALVE, 9), close(I2C, 5, VALVE), close(I2C, 5, VALVE)], &[]),
    // "Each poll takes one from every lease above 0; an entry still open is due at exactly its last poll (0 left) and
    // stays due until closed or renewed."
    ("a poll", &[open(I2C, 5, VALVE, 3), open(SERIAL, 5, VALVE, 1), open(I2C, 6, VALVE, 65_535), POLL],
     &[at(0, I2C, 5, VALVE, 2), at(1, SERIAL, 5, VALVE, 0), at(2, I2C, 6, VALVE, 65_534)]),
    ("a poll with nothing held", &[POLL], &[]),
    ("one poll before the last", &[open(I2C, 5, VALVE, 3), POLL, POLL], &[at(0, I2C, 5, VALVE, 1)]),
    ("the last poll", &[open(I2C, 5, VALVE, 3), POLL, POLL, POLL], &[at(0, I2C, 5, VALVE, 0)]),
    ("stays due", &[open(I2C, 5, VALVE, 1), POLL, POLL, POLL], &[at(0, I2C, 5, VALVE, 0)]),
    ("due until closed", &[open(I2C, 5, VALVE, 1), POLL, POLL, close(I2C, 5, VALVE)], &[]),
    ("due until renewed", &[open(I2C, 5, VALVE, 1), POLL, POLL, open(I2C, 5, VALVE, 4), POLL],
     &[at(0, I2C, 5, VALVE, 3)]),
    ("a due entry holds its place", &[open(I2C, 5, VALVE, 1), POLL, open(I2C, 6, VALVE, 2)],
     &[at(0, I2C, 5, VALVE, 0), at(1, I2C, 6, VALVE, 2)]),
    // "Opening an entry already there renews its lease and takes no second place."
    ("a longer lease", &[open(I2C, 5, VALVE, 4), open(I2C, 5, VALVE, 9)], &[at(0, I2C, 5, VALVE, 9)]),
    ("a shorter lease", &[open(I2C, 5, VALVE, 9), open(I2C, 5, VALVE, 4)], &[at(0, I2C, 5, VALVE, 4)]),
    ("renewed by 3FEF and by 46",
     &[open(I2C, 5, VALVE, 9), open(SERIAL, 5, CALIBRATION, 9), acknowledged(5, 0x3FEF, 3), reply(5, 15, 0, 4)],
     &[at(0, I2C, 5, VALVE, 3), at(1, SERIAL, 5, CALIBRATION, 4)]),
    ("renewed at its place, although a lower one is free",
     &[open(I2C, 5, VALVE, 9), open(I2C, 6, VALVE, 9), close(I2C, 5, VALVE), open(I2C, 6, VALVE, 4)],
     &[at(1, I2C, 6, VALVE, 4)]),
    // "A freed place is used again, the lowest first."
    ("the lowest first, and not the last one freed",
     &[open(I2C, 1, VALVE, 1), open(I2C, 2, VALVE, 2), open(I2C, 3, VALVE, 3), close(I2C, 1, VALVE),
       close(I2C, 3, VALVE), open(I2C, 7, VALVE, 7), open(I2C, 8, VALVE, 8), open(I2C, 9, VALVE, 9)],
     &[at(0, I2C, 7, VALVE, 7), at(1, I2C, 2, VALVE, 2), at(2, I2C, 8, VALVE, 8), at(3, I2C, 9, VALVE, 9)]),
    ("places freed by a restart",
     &[open(I2C, 1, VALVE, 1), open(I2C, 2, VALVE, 2), open(I2C, 1, CALIBRATION, 3), restart(I2C, 1),
       acknowledged(9, 0x3FEF, 4), reply(9, 15, 0, 5)],
     &[at(0, I2C, 9, VALVE, 4), at(1, I2C, 2, VALVE, 2), at(2, SERIAL, 9, CALIBRATION, 5)]),
];

fn orders(section: &mut Section) {
    for (what, orders, held) in ORDERS {
        for (name, on) in both() {
            let mut table = table(PLACES, &[]);
            for order in *orders {
                section.expect(&format!("{name}, {what}: {order:?}"), 0, give(on, &mut table, order));
            }
            section.expect(&format!("{name}, {what}: the entries"), held.to_vec(), placed(&table));
        }
    }
}

/// "an entry still open is due at exactly its last poll": the longest lease, poll by poll.
fn longest_lease(section: &mut Section) {
    for (name, on) in both() {
        let mut table = table(PLACES, &[]);
        section.expect(&format!("{name} opens"), 0, on.board_open(&mut table, I2C, 5, VALVE, 65_535));
        for left in (0..65_535).rev().chain([0, 0]) {
            section.expect(&format!("{name} polls"), 0, on.board_poll(&mut table));
            section.expect(&format!("{name}: polls left"), vec![at(0, I2C, 5, VALVE, left)], placed(&table));
        }
    }
}

/// A reply from address 5 as it is read from the wire (bit 7 of its state changes nothing); request and value; the
/// entries before it and after it.
#[rustfmt::skip]
const READ_REPLIES: &[(&str, u8, u32, &[Placed], &[Placed])] = &[
    ("7E 05 46 00 00 B4 7E", 15, 1, &[], &[at(0, SERIAL, 5, CALIBRATION, 9)]),
    ("7E 05 46 80 00 34 7E", 15, 1, &[], &[at(0, SERIAL, 5, CALIBRATION, 9)]),
    ("7E 05 46 20 00 94 7E", 15, 1, &[], &[]),
    ("7E 06 46 00 00 B3 7E", 15, 1, &[], &[]),
    ("7E 05 45 00 00 B5 7E", 14, 1, &[at(3, SERIAL, 5, CALIBRATION, 2)], &[]),
    ("7E 05 45 20 00 95 7E", 14, 1, &[at(3, SERIAL, 5, CALIBRATION, 2)], &[at(3, SERIAL, 5, CALIBRATION, 2)]),
    ("7E 05 45 00 04 00 00 00 01 B0 7E", 13, 0, &[at(3, SERIAL, 5, CALIBRATION, 2)],
     &[at(3, SERIAL, 5, CALIBRATION, 2)]),
    ("7E 05 90 00 00 6A 7E", 17, 6, &[at(3, SERIAL, 5, CALIBRATION, 2)], &[at(3, SERIAL, 5, CALIBRATION, 2)]),
];

fn read_replies(section: &mut Section) {
    for (wire, request, value, before, after) in READ_REPLIES {
        for (name, on) in both() {
            let mut table = table(PLACES, before);
            let read = on.read_reply(5, *request, *value, &body_of(on, 1, wire));
            let answer = on.board_reply(&mut table, 5, *request, read.refusal, 9);
            section.expect(&format!("{name}, {wire}: answer"), 0, answer);
            section.expect(&format!("{name}, {wire}: the entries"), after.to_vec(), placed(&table));
        }
    }
}

/// Of all requests two concern an entry, of all codes two do; five more are known.
fn no_concern(section: &mut Section) {
    let held = [at(4, SERIAL, 5, CALIBRATION, 9), at(6, I2C, 5, VALVE, 9)];
    for (name, on) in both() {
        for request in (0..=255).filter(|request| ![14, 15].contains(request)) {
            let mut table = table(PLACES, &held);
            let expected = if request <= 20 { 0 } else { 12 };
            let found = on.board_reply(&mut table, 5, request, 0, 3);
            section.expect(&format!("{name}: request {request}"), expected, found);
            section.expect(&format!("{name}: entries after request {request}"), held.to_vec(), placed(&table));
        }
        for code in (0..=u16::MAX).filter(|code| ![0x3FEF, 0x3F6E].contains(code)) {
            let mut table = table(PLACES, &held);
            let known = [0xE102, 0xE000, 0xE17D, 0x3650, 0x365B].contains(&code);
            let found = on.board_acknowledged(&mut table, 5, code, 3);
            section.expect(&format!("{name}: code {code:04X}"), if known { 0 } else { 12 }, found);
            section.expect(&format!("{name}: entries after {code:04X}"), held.to_vec(), placed(&table));
        }
    }
}

// ---- The list

/// "The board is listed by bus (serial first), address and kind (valve first), each entry with its polls left."
#[rustfmt::skip]
const LISTED: [Placed; 9] = [
    at(31, SERIAL, 0, VALVE, 3),
    at(7, SERIAL, 9, VALVE, 65_535),
    at(30, SERIAL, 9, CALIBRATION, 0),
    at(2, SERIAL, 200, VALVE, 1),
    at(8, SERIAL, 254, CALIBRATION, 256),
    at(0, I2C, 0, CALIBRATION, 7),
    at(4, I2C, 9, VALVE, 0),
    at(3, I2C, 9, CALIBRATION, 5),
    at(1, I2C, 127, VALVE, 2),
];

fn lists(section: &mut Section) {
    let entries: Vec<Entry> = LISTED.iter().map(|(_, entry)| *entry).collect();
    let untouched = Entry { kind: 0xC3, bus: 0x5A, address: 0xC3, padding: 0x5A, left: 0x5AC3 };
    for (name, on) in both() {
        for count in 0..=LISTED.len() {
            let table = table(PLACES, &LISTED[..count]);
            for places in 0..=40 {
                let (lent, mut room) = (table.clone(), vec![untouched; places]);
                let listed = on.board_list(&lent, &mut room);
                let fits = count <= places;
                let expected = if fits { Listed { refusal: 0, count } } else { Listed { refusal: 1, count: 0 } };
                section.expect(&format!("{name} lists {count} in {places}"), expected, listed);
                let (used, rest) = room.split_at_mut(if fits { count } else { 0 });
                used.iter_mut().for_each(|place| place.padding = 0);
                section.expect(&format!("{name}: the list of {count} in {places}"), &entries[..used.len()], &*used);
                section.expect(&format!("{name}: the rest of {places}"), &vec![untouched; rest.len()][..], &*rest);
                section.expect(&format!("{name}: a listed table"), &table, &lent);
            }
        }
    }
}

// ---- Refusals

/// What is said; the table's places and the entries in them; an order and its answer.
#[rustfmt::skip]
const ANSWERS: &[(&str, usize, &[Placed], Order, u8)] = &[
    // "1 for a table not of 32 places"
    ("31 places", 31, &[], POLL, 1),
    ("33 places", 33, &[], POLL, 1),
    ("no places", 0, &[], POLL, 1),
    ("64 places", 64, &[], POLL, 1),
    ("32 places", 32, &[], POLL, 0),
    ("31 places, opened", 31, &[], open(I2C, 5, VALVE, 9), 1),
    ("33 places, opened", 33, &[], open(I2C, 5, VALVE, 9), 1),
    ("31 places, closed", 31, &[at(0, I2C, 5, VALVE, 9)], close(I2C, 5, VALVE), 1),
    ("33 places, restarted", 33, &[at(0, I2C, 5, VALVE, 9)], restart(I2C, 5), 1),
    ("31 places, listed", 31, &[], list(32), 1),
    ("33 places, listed", 33, &[], list(32), 1),
    ("31 places, a reply", 31, &[], reply(5, 15, 0, 9), 1),
    ("33 places, acknowledged", 33, &[], acknowledged(5, 0x3FEF, 9), 1),
    // "2 for one with an entry out of range or the same node and kind twice"
    ("kind 3", 32, &[at(0, SERIAL, 5, 3, 9)], POLL, 2),
    ("kind 255 in the last place", 32, &[at(31, SERIAL, 5, 255, 9)], POLL, 2),
    ("bus 2", 32, &[at(9, 2, 5, VALVE, 9)], POLL, 2),
    ("bus 255", 32, &[at(9, 255, 5, VALVE, 9)], POLL, 2),
    ("serial address 255", 32, &[at(9, SERIAL, 255, CALIBRATION, 9)], POLL, 2),
    ("I2C address 128", 32, &[at(9, I2C, 128, VALVE, 9)], POLL, 2),
    ("I2C address 254", 32, &[at(9, I2C, 254, VALVE, 9)], POLL, 2),
    ("no kind, but an address", 32, &[at(9, 0, 5, 0, 0)], POLL, 2),
    ("no kind, but a bus", 32, &[at(9, 1, 0, 0, 0)], POLL, 2),
    ("no kind, but a lease", 32, &[at(9, 0, 0, 0, 1)], POLL, 2),
    ("no kind, but a lease of 256", 32, &[at(9, 0, 0, 0, 256)], POLL, 2),
    ("the ends of the ranges", 32, &[at(0, SERIAL, 254, VALVE, 65_535), at(31, I2C, 127, CALIBRATION, 0)], POLL, 0),
    ("the same twice", 32, &[at(0, I2C, 5, VALVE, 9), at(31, I2C, 5, VALVE, 9)], POLL, 2),
    ("the same twice with two leases", 32, &[at(14, SERIAL, 5, VALVE, 9), at(15, SERIAL, 5, VALVE, 8)], POLL, 2),
    ("the same node with two kinds", 32, &[at(0, I2C, 5, VALVE, 9), at(31, I2C, 5, CALIBRATION, 9)], POLL, 0),
    ("the same address on two buses", 32, &[at(0, I2C, 5, VALVE, 9), at(31, SERIAL, 5, VALVE, 9)], POLL, 0),
    ("a bad table, opened", 32, &[at(9, 2, 5, VALVE, 9)], open(I2C, 6, VALVE, 9), 2),
    ("a bad table, closed", 32, &[at(9, 2, 5, VALVE, 9)], close(I2C, 6, VALVE), 2),
    ("a bad table, restarted", 32, &[at(9, 2, 5, VALVE, 9)], restart(I2C, 6), 2),
    ("a bad table, listed", 32, &[at(9, 2, 5, VALVE, 9)], list(32), 2),
    ("a bad table, listed without room", 32, &[at(9, 2, 5, VALVE, 9)], list(0), 2),
    ("a bad table, a reply that concerns none", 32, &[at(9, 2, 5, VALVE, 9)], reply(5, 0, 0, 9), 2),
    ("a bad table, a code that concerns none", 32, &[at(9, 2, 5, VALVE, 9)], acknowledged(5, 0xE000, 9), 2),
    // "12 for a lease or address outside its range"
    ("serial 255", 32, &[], open(SERIAL, 255, VALVE, 1), 12),
    ("I2C 128", 32, &[], open(I2C, 128, VALVE, 1), 12),
    ("I2C 254", 32, &[], open(I2C, 254, VALVE, 1), 12),
    ("I2C 255", 32, &[], open(I2C, 255, VALVE, 1), 12),
    ("bus 2, opened", 32, &[], open(2, 5, VALVE, 1), 12),
    ("bus 255, opened", 32, &[], open(255, 5, VALVE, 1), 12),
    ("kind 0, opened", 32, &[], open(I2C, 5, 0, 1), 12),
    ("kind 3, opened", 32, &[], open(I2C, 5, 3, 1), 12),
    ("kind 255, opened", 32, &[], open(I2C, 5, 255, 1), 12),
    ("a lease of 0", 32, &[], open(I2C, 5, VALVE, 0), 12),
    ("a lease of 65,536", 32, &[], open(I2C, 5, VALVE, 65_536), 12),
    ("a lease of 65,537", 32, &[], open(I2C, 5, VALVE, 65_537), 12),
    ("the largest number as a lease", 32, &[], open(I2C, 5, VALVE, u32::MAX), 12),
    ("3FEF, a lease of 0", 32, &[], acknowledged(5, 0x3FEF, 0), 12),
    ("3FEF, a lease of 65,536", 32, &[], acknowledged(5, 0x3FEF, 65_536), 12),
    ("46, a lease of 0", 32, &[], reply(5, 15, 0, 0), 12),
    ("46, a lease of 65,536", 32, &[], reply(5, 15, 0, 65_536), 12),
    ("renewed for 0 polls", 32, &[at(0, I2C, 5, VALVE, 9)], open(I2C, 5, VALVE, 0), 12),
    ("renewed for 65,536 polls", 32, &[at(0, I2C, 5, VALVE, 9)], open(I2C, 5, VALVE, 65_536), 12),
    ("a close of serial 255", 32, &[], close(SERIAL, 255, VALVE), 12),
    ("a close of I2C 128", 32, &[], close(I2C, 128, VALVE), 12),
    ("a close on bus 2", 32, &[], close(2, 5, VALVE), 12),
    ("a close of kind 0", 32, &[], close(I2C, 5, 0), 12),
    ("a close of kind 3", 32, &[], close(I2C, 5, 3), 12),
    ("a restart of serial 255", 32, &[], restart(SERIAL, 255), 12),
    ("a restart of I2C 128", 32, &[], restart(I2C, 128), 12),
    ("a restart on bus 2", 32, &[], restart(2, 5), 12),
    ("46 to 255", 32, &[], reply(255, 15, 0, 9), 12),
    ("45 set to 255", 32, &[], reply(255, 14, 0, 9), 12),
    ("45 set, and no lease", 32, &[at(0, SERIAL, 5, VALVE, 9)], reply(5, 14, 0, 0), 0),
    ("46 to 255, refused by the reader", 32, &[], reply(255, 15, 14, 0), 0),
    ("another request to 255", 32, &[], reply(255, 0, 0, 0), 0),
    ("request 21", 32, &[], reply(5, 21, 0, 9), 12),
    ("request 21, refused by the reader", 32, &[], reply(5, 21, 11, 9), 12),
    ("3FEF to 128", 32, &[], acknowledged(128, 0x3FEF, 9), 12),
    ("3F6E to 128", 32, &[], acknowledged(128, 0x3F6E, 9), 12),
    ("3F6E, and no lease", 32, &[at(0, SERIAL, 5, VALVE, 9)], acknowledged(5, 0x3F6E, 0), 0),
    ("E102 to 128, and no lease", 32, &[], acknowledged(128, 0xE102, 0), 0),
    // "in order"
    ("1 before 2", 33, &[at(9, 2, 5, VALVE, 9)], POLL, 1),
    ("1 before 12", 31, &[], open(I2C, 128, VALVE, 0), 1),
    ("2 before 12", 32, &[at(9, 2, 5, VALVE, 9)], open(I2C, 128, VALVE, 0), 2),
    ("2 before 12, closed", 32, &[at(9, 2, 5, VALVE, 9)], close(I2C, 128, VALVE), 2),
    ("2 before 12, restarted", 32, &[at(9, 2, 5, VALVE, 9)], restart(2, 0), 2),
    ("2 before 12, a reply", 32, &[at(9, 2, 5, VALVE, 9)], reply(5, 21, 0, 9), 2),
    ("2 before 12, acknowledged", 32, &[at(9, 2, 5, VALVE, 9)], acknowledged(5, 0, 9), 2),
];

fn answers(section: &mut Section) {
    for (what, size, held, order, answer) in ANSWERS {
        for (name, on) in both() {
            let before = table(*size, held);
            let mut after = before.clone();
            section.expect(&format!("{name}, {what}"), *answer, give(on, &mut after, order));
            if *answer != 0 {
                section.expect(&format!("{name}, {what}: a refusal changes no byte"), &before, &after);
            }
        }
    }
}

/// "19 when a new entry is wanted and all 32 places are held"
fn full_board(section: &mut Section) {
    #[rustfmt::skip]
    const NEW: [Order; 4] = [
        open(I2C, 99, VALVE, 9), open(SERIAL, 0, CALIBRATION, 9), reply(99, 15, 0, 9), acknowledged(99, 0x3FEF, 9),
    ];
    #[rustfmt::skip]
    const OTHERS: [(Order, u8); 14] = [
        // renewed: no new entry is wanted
        (open(SERIAL, 0, VALVE, 7), 0),
        (open(I2C, 15, VALVE, 7), 0),
        (reply(32, 15, 0, 7), 0),
        (acknowledged(15, 0x3FEF, 7), 0),
        // closing what isn't there, and what concerns no entry
        (close(I2C, 99, VALVE), 0),
        (restart(I2C, 99), 0),
        (reply(99, 14, 0, 7), 0),
        (reply(99, 15, 15, 7), 0),
        (acknowledged(99, 0xE102, 7), 0),
        // 12 before 19
        (open(I2C, 99, VALVE, 0), 12),
        (open(I2C, 128, VALVE, 9), 12),
        (open(I2C, 99, 3, 9), 12),
        (reply(255, 15, 0, 9), 12),
        (acknowledged(99, 0x3FEF, 65_536), 12),
    ];
    for (name, on) in both() {
        // 15 valves on serial and 16 on I2C at the addresses from 0 on, and one calibration
        let mut board = table(PLACES, &[]);
        for address in 0..16 {
            for bus in [SERIAL, I2C] {
                let valve = open(bus, address, VALVE, 1);
                let order = if (bus, address) == (SERIAL, 15) { reply(32, 15, 0, 1) } else { valve };
                section.expect(&format!("{name} opens {bus} {address}"), 0, give(on, &mut board, &order));
            }
        }
        section.expect(&format!("{name}: places held"), PLACES, placed(&board).len());
        let full = board.clone();
        for order in &NEW {
            section.expect(&format!("{name}, full: {order:?}"), 19, give(on, &mut board, order));
            section.expect(&format!("{name}, full: no byte is changed"), &full, &board);
        }
        for (order, answer) in &OTHERS {
            section.expect(&format!("{name}, full: {order:?}"), *answer, give(on, &mut full.clone(), order));
        }
        // Due entries hold their places; a freed one is used again.
        section.expect(&format!("{name} polls"), 0, on.board_poll(&mut board));
        let all_due = board.iter().all(|entry| entry.kind != 0 && entry.left == 0);
        section.expect(&format!("{name}: every place is polled"), true, all_due);
        section.expect(&format!("{name}, all due"), 19, give(on, &mut board, &NEW[0]));
        section.expect(&format!("{name} closes I2C 7"), 0, give(on, &mut board, &close(I2C, 7, VALVE)));
        section.expect(&format!("{name} opens I2C 99"), 0, give(on, &mut board, &NEW[0]));
        section.expect(&format!("{name}: its place"), Some(&at(15, I2C, 99, VALVE, 9)), placed(&board).get(15));
        section.expect(&format!("{name}, full again"), 19, give(on, &mut board, &NEW[1]));
        let mut twice = full.clone();
        twice[31] = twice[0];
        section.expect(&format!("{name}: 2 before 19"), 2, give(on, &mut twice, &NEW[0]));
    }
}

pub fn run(report: &mut Report) {
    report.section("vectors: board, what orders do", orders);
    report.section("vectors: board, the longest lease", longest_lease);
    report.section("vectors: board, replies as they are read", read_replies);
    report.section("vectors: board, what concerns no entry", no_concern);
    report.section("vectors: board, lists", lists);
    report.section("vectors: board, refusals", answers);
    report.section("vectors: board, all places held", full_board);
}
