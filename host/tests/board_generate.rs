//! Random tables and orders for the handover board, bent towards the places where implementations differ.

use crate::board::*;
use crate::board_cases::{free, Order};
use crate::harness::Random;
use crate::interface::Entry;

pub type Node = (u8, u8);

pub fn last_address(bus: u8) -> u8 {
    if bus == SERIAL {
        254
    } else {
        127
    }
}

/// A node in range, often at an end of it.
fn good_node(random: &mut Random) -> Node {
    let bus = random.pick(&[SERIAL, I2C]);
    let last = last_address(bus);
    match random.below(3) {
        0 => (bus, random.pick(&[0, 1, last - 1, last])),
        _ => (bus, random.below(usize::from(last) + 1) as u8),
    }
}

pub fn good_nodes(random: &mut Random, n: usize) -> Vec<Node> {
    (0..n).map(|_| good_node(random)).collect()
}

/// One of the nodes; now and then one number of it is another.
fn node(random: &mut Random, nodes: &[Node]) -> Node {
    let (bus, address) = random.pick(nodes);
    match random.below(24) {
        0 => (random.pick(&[0, 1, 2, 3, 128, 255]), address),
        1 => (bus, random.pick(&[0, 127, 128, 129, 254, 255])),
        2 => (bus, random.byte()),
        3 => (bus ^ 1, address),
        _ => (bus, address),
    }
}

pub fn kind(random: &mut Random) -> u8 {
    match random.below(16) {
        0 => random.pick(&[0, 3, 4, 255]),
        1 => random.byte(),
        _ => random.pick(&[VALVE, CALIBRATION]),
    }
}

/// Mostly a few polls, so that entries come due; else an end of the range, a number that 16 bits would cut, or any.
pub fn lease(random: &mut Random) -> u32 {
    match random.below(12) {
        0 => random.pick(&[0, 65_536, 65_537, 0x0003_0005, 0x8000_0000, 0xFFFF_0001, u32::MAX]),
        1 => random.pick(&[1, 2, 255, 256, 65_534, 65_535]),
        2 => random.u32() >> random.below(32),
        _ => random.between(1, 4) as u32,
    }
}

/// Mostly one of the two that the board heeds; else another of the table, or past it.
fn request(random: &mut Random) -> u8 {
    match random.below(8) {
        0 => random.pick(&[12, 13, 16, 17]),
        1 => random.below(21) as u8,
        2 => random.between(21, 255) as u8,
        _ => random.pick(&[SET_CALIBRATION, VOLATILE_CALIBRATION]),
    }
}

fn refusal(random: &mut Random) -> u8 {
    match random.below(6) {
        0 => random.pick(&[1, 12, 14, 15, 128, 255]),
        1 => random.byte(),
        _ => 0,
    }
}

/// Mostly one of the two that the board heeds; else another code, a neighbour of one, or any.
fn code(random: &mut Random) -> u16 {
    let known = match random.below(4) {
        0 => random.pick(&OTHER_CODES),
        _ => random.pick(&[SHUT_VALVE, NORMAL_CONTROL]),
    };
    match random.below(12) {
        0 => known.wrapping_add(random.pick(&[1, 2, 0x100, 0xFFFF])),
        1 => known ^ 1 << random.below(16),
        2 => known.swap_bytes(),
        3 => random.u16(),
        _ => known,
    }
}

/// An order about these nodes; of ten orders so many open an entry.
pub fn order(random: &mut Random, nodes: &[Node], opening: usize) -> Order {
    let (bus, address) = node(random, nodes);
    let (kind, lease) = (kind(random), lease(random));
    if random.below(10) < opening {
        return match random.below(4) {
            0 => Order::Reply { address, request: VOLATILE_CALIBRATION, refusal: 0, lease },
            1 => Order::Acknowledged { address, code: SHUT_VALVE, lease },
            _ => Order::Open { bus, address, kind, lease },
        };
    }
    match random.below(10) {
        0 | 1 => Order::Close { bus, address, kind },
        2 => Order::Restart { bus, address },
        3..=5 => Order::Poll {},
        6 => Order::List { room: random.below(41) },
        7 | 8 => Order::Reply { address, request: request(random), refusal: refusal(random), lease },
        _ => Order::Acknowledged { address, code: code(random), lease },
    }
}

/// A short series about few nodes, for renewals, or a longer one about enough of them to hold every place.
pub fn orders(random: &mut Random) -> Vec<Order> {
    let (several, most) = random.pick(&[(1, 30), (2, 40), (4, 60), (12, 80), (30, 240), (40, 240)]);
    let (nodes, opening) = (good_nodes(random, several), random.pick(&[2, 5, 8]));
    (0..random.between(1, most)).map(|_| order(random, &nodes, opening)).collect()
}

// ---- Tables

fn shuffled<T>(random: &mut Random, mut list: Vec<T>) -> Vec<T> {
    for at in (1..list.len()).rev() {
        list.swap(at, random.below(at + 1));
    }
    list
}

pub fn free_places(random: &mut Random) -> Vec<Entry> {
    (0..PLACES).map(|_| free(random.byte())).collect()
}

fn polls_left(random: &mut Random) -> u16 {
    match random.below(3) {
        0 => random.u16(),
        _ => random.pick(&[0, 0, 1, 2, 255, 256, 65_535]),
    }
}

/// Every place in range and no entry twice, with so many of them held.
pub fn good_table(random: &mut Random, held: usize) -> Vec<Entry> {
    // Fifty nodes are enough for 32 entries, although some of them are the same.
    let mut keys: Vec<(Node, u8)> =
        good_nodes(random, 50).into_iter().flat_map(|node| [(node, VALVE), (node, CALIBRATION)]).collect();
    keys.sort_unstable();
    keys.dedup();
    let keys = shuffled(random, keys);
    let places = shuffled(random, (0..PLACES).collect());
    let mut table = free_places(random);
    for (place, ((bus, address), kind)) in places.into_iter().zip(keys).take(held) {
        table[place] = Entry { kind, bus, address, left: polls_left(random), ..table[place] };
    }
    table
}

fn any_entry(random: &mut Random) -> Entry {
    let bytes = random.next();
    Entry {
        kind: bytes as u8,
        bus: (bytes >> 8) as u8,
        address: (bytes >> 16) as u8,
        padding: (bytes >> 24) as u8,
        left: (bytes >> 32) as u16,
    }
}

/// Changes one place, mostly out of its range or into another's copy.
fn spoil(random: &mut Random, table: &mut [Entry]) {
    let at = if random.one_in(3) { random.pick(&[0, PLACES - 1]) } else { random.below(PLACES) };
    let other = table[random.below(PLACES)];
    let place = &mut table[at];
    match random.below(12) {
        0 => place.kind = 0,
        1 => place.kind = random.pick(&[3, 4, 128, 255]),
        2 => place.bus = random.pick(&[0, 1, 2, 3, 128, 255]),
        3 => place.address = random.pick(&[127, 128, 129, 254, 255]),
        4 => place.address = random.byte(),
        5 => place.left = random.pick(&[0, 1, 256, 65_535]),
        6 => *place = other,
        7 => *place = Entry { left: random.u16(), ..other },
        8 => *place = Entry { padding: random.byte(), ..other },
        9 => place.kind = random.byte(),
        10 => place.bus ^= 1 << random.below(8),
        _ => *place = any_entry(random),
    }
}

/// How many places to hold: none, all, all but one, or any number.
fn any_held(random: &mut Random) -> usize {
    match random.below(6) {
        0 => 0,
        1 => PLACES - 1,
        2 | 3 => PLACES,
        _ => random.below(PLACES + 1),
    }
}

/// Good tables, some of them spoilt, any bytes, and tables of other sizes.
pub fn any_table(random: &mut Random) -> Vec<Entry> {
    let held = any_held(random);
    let mut table = good_table(random, held);
    match random.below(12) {
        0..=4 => {}
        5..=9 => (0..random.pick(&[1, 1, 1, 2, 3])).for_each(|_| spoil(random, &mut table)),
        10 => table.iter_mut().for_each(|place| *place = any_entry(random)),
        _ => {
            let size = match random.below(3) {
                0 => random.below(70),
                _ => random.pick(&[0, 1, 31, 33, 64]),
            };
            let more = if random.one_in(2) { free(random.byte()) } else { any_entry(random) };
            table.resize(size, more);
        }
    }
    table
}

/// An order that fits a table: mostly about a node that it holds.
pub fn order_on(random: &mut Random, table: &[Entry]) -> Order {
    let mut nodes: Vec<Node> = table.iter().map(|entry| (entry.bus, entry.address)).collect();
    nodes.extend(good_nodes(random, 4));
    let held = table.iter().filter(|entry| entry.kind != 0).count();
    match order(random, &nodes, 3) {
        Order::List { .. } if random.one_in(2) => Order::List { room: (held + random.below(3)).saturating_sub(1) },
        order => order,
    }
}
