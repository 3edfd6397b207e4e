//! The handover board against the reference: series of orders, any order on any table, and what can be tried whole.

use crate::board::*;
use crate::board_cases::*;
use crate::board_generate as generate;
use crate::harness::*;
use crate::interface::Entry;

fn check(section: &mut Section, table: &[Entry], order: Order, salt: u32) {
    section.check(OnTable { table: Table(table.to_vec()), order, salt });
}

/// One order of each function, about a node and a kind.
fn one_of_each(bus: u8, address: u8, kind: u8, lease: u32) -> [Order; 7] {
    [
        Order::Open { bus, address, kind, lease },
        Order::Close { bus, address, kind },
        Order::Restart { bus, address },
        Order::Poll {},
        Order::List { room: PLACES },
        Order::Reply { address, request: VOLATILE_CALIBRATION, refusal: 0, lease },
        Order::Acknowledged { address, code: SHUT_VALVE, lease },
    ]
}

// ---- Random orders

fn series_section(section: &mut Section) {
    for _ in 0..section.times(20_000) {
        let (orders, salt) = (generate::orders(&mut section.random), section.random.u32());
        section.check(Orders { orders, salt });
    }
}

/// Six orders on each table, since a table takes longer to make than an order.
fn any_table_section(section: &mut Section) {
    for _ in 0..section.times(150_000) {
        let table = generate::any_table(&mut section.random);
        for _ in 0..6 {
            let order = generate::order_on(&mut section.random, &table);
            let salt = section.random.u32();
            check(section, &table, order, salt);
        }
    }
}

// ---- Whole ranges

/// A few entries, the lowest place and the highest among them.
fn few_entries() -> Vec<Entry> {
    let mut table: Vec<Entry> = (0..PLACES as u8).map(|at| free(at * 37)).collect();
    let held = [
        (0, SERIAL, 254, VALVE),
        (2, SERIAL, 7, VALVE),
        (3, I2C, 7, VALVE),
        (20, SERIAL, 7, CALIBRATION),
        (31, I2C, 127, CALIBRATION),
    ];
    for (place, bus, address, kind) in held {
        table[place] = Entry { kind, bus, address, left: place as u16, ..table[place] };
    }
    table
}

/// Both kinds of the node at places of their own, where it is a node and has no entry yet.
fn with_node(table: &[Entry], bus: u8, address: u8) -> Vec<Entry> {
    let mut table = table.to_vec();
    let is_there = table.iter().any(|entry| entry.kind != 0 && (entry.bus, entry.address) == (bus, address));
    if bus <= I2C && address <= generate::last_address(bus) && !is_there {
        for (place, kind) in [(9, CALIBRATION), (11, VALVE)] {
            table[place] = Entry { kind, bus, address, left: 300, ..table[place] };
        }
    }
    table
}

/// Every bus and every address with the kinds 0 to 4, opened new, renewed, closed and restarted.
fn every_node_section(section: &mut Section) {
    let few = few_entries();
    for bus in 0..=255 {
        for address in 0..=255 {
            let held = with_node(&few, bus, address);
            let salt = u32::from(address);
            for kind in 0..=4 {
                check(section, &few, Order::Open { bus, address, kind, lease: 5 }, salt);
                check(section, &held, Order::Open { bus, address, kind, lease: 5 }, salt);
                check(section, &held, Order::Close { bus, address, kind }, salt);
            }
            check(section, &held, Order::Restart { bus, address }, salt);
        }
    }
}

/// All leases up to 65,600, on new entries and on those that are there.
fn every_lease_section(section: &mut Section) {
    let few = few_entries();
    for lease in (0..=65_600).chain([0x0001_FFFF, 0x0002_0000, 0x7FFF_FFFF, 0x8000_0000, 0xFFFF_0001, u32::MAX]) {
        check(section, &few, Order::Open { bus: I2C, address: 8, kind: CALIBRATION, lease }, lease);
        check(section, &few, Order::Open { bus: SERIAL, address: 7, kind: VALVE, lease }, lease);
        check(section, &few, Order::Reply { address: 7, request: VOLATILE_CALIBRATION, refusal: 0, lease }, lease);
        check(section, &few, Order::Acknowledged { address: 8, code: SHUT_VALVE, lease }, lease);
        // What closes an entry, or concerns none, does not look at the lease.
        check(section, &few, Order::Acknowledged { address: 7, code: NORMAL_CONTROL, lease }, lease);
        check(section, &few, Order::Reply { address: 7, request: SET_CALIBRATION, refusal: 0, lease }, lease);
    }
}

/// All codes to a node with a valve entry, to one without, and to an address out of range.
fn every_code_section(section: &mut Section) {
    let few = few_entries();
    for code in 0..=u16::MAX {
        for address in [7, 8, 128] {
            let lease = section.random.pick(&[1, 9, 65_535, 0, 65_536]);
            check(section, &few, Order::Acknowledged { address, code, lease }, u32::from(code));
        }
    }
}

/// All pairs of a request and a refusal, to a node with a calibration entry, to one without, and to an address out of
/// range.
fn every_reply_section(section: &mut Section) {
    let few = few_entries();
    for request in 0..=255 {
        for refusal in 0..=255 {
            for address in [7, 8, 255] {
                let lease = section.random.pick(&[1, 9, 65_535, 0, 65_536]);
                check(section, &few, Order::Reply { address, request, refusal, lease }, u32::from(refusal));
            }
        }
    }
}

/// Every value of each byte of each place, in a table with no other entry and in one with every place held.
fn every_byte_section(section: &mut Section) {
    for held in [0, PLACES] {
        let table = generate::good_table(&mut section.random, held);
        for place in 0..PLACES {
            for value in 0..=255 {
                let entry = table[place];
                let [low, high] = entry.left.to_le_bytes();
                let changes = [
                    Entry { kind: value, ..entry },
                    Entry { bus: value, ..entry },
                    Entry { address: value, ..entry },
                    Entry { padding: value, ..entry },
                    Entry { left: u16::from_le_bytes([value, high]), ..entry },
                    Entry { left: u16::from_le_bytes([low, value]), ..entry },
                ];
                for changed in changes {
                    let mut spoilt = table.clone();
                    spoilt[place] = changed;
                    check(section, &spoilt, Order::Poll {}, u32::from(value));
                }
            }
        }
    }
}

/// An entry copied to every other place, with its own lease and with another, by each function.
fn doubled_section(section: &mut Section) {
    for held in [2, PLACES] {
        let table = generate::good_table(&mut section.random, held);
        for from in (0..PLACES).filter(|place| table[*place].kind != 0) {
            for to in (0..PLACES).filter(|place| *place != from) {
                let entry = table[from];
                let left = if to % 2 == 0 { entry.left } else { !entry.left };
                let mut doubled = table.clone();
                doubled[to] = Entry { left, padding: doubled[to].padding, ..entry };
                for order in one_of_each(entry.bus, entry.address, entry.kind, 5) {
                    check(section, &doubled, order, to as u32);
                }
            }
        }
    }
}

/// Tables of 0 to 70 places, with an address in range and one out of it; those of no place also as NULL.
fn sizes_section(section: &mut Section) {
    for size in 0..=70 {
        for held in [0, 1, PLACES] {
            for address in [7, 255] {
                let mut table = generate::good_table(&mut section.random, held);
                table.resize(size, free(0xA5));
                for order in one_of_each(I2C, address, VALVE, 5) {
                    for salt in [0, 1] {
                        check(section, &table, order.clone(), salt);
                    }
                }
            }
        }
    }
}

/// Rooms of 0 to 40 places for lists of 0 to 32 entries; those of no place also as NULL.
fn rooms_section(section: &mut Section) {
    for held in 0..=PLACES {
        for room in 0..=40 {
            for salt in 0..4 {
                let table = generate::good_table(&mut section.random, held);
                check(section, &table, Order::List { room }, salt);
            }
        }
    }
}

pub fn run(report: &mut Report) {
    report.section("board: series of orders", series_section);
    report.section("board: any order on any table", any_table_section);
    report.section("board: every bus, address and kind", every_node_section);
    report.section("board: every lease", every_lease_section);
    report.section("board: every code acknowledged", every_code_section);
    report.section("board: every request and refusal", every_reply_section);
    report.section("board: every byte of every place", every_byte_section);
    report.section("board: every entry twice", doubled_section);
    report.section("board: every size of a table", sizes_section);
    report.section("board: every room for a list", rooms_section);
}
