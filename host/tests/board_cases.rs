//! Orders to the handover board: one on any table, and series of them from the empty table.

use crate::board::PLACES;
use crate::case;
use crate::harness::*;
use crate::interface::*;
use crate::library::Library;
use crate::reference::Reference;
use std::fmt::{self, Debug, UpperHex};

// ---- Places and tables

impl Element for Entry {
    fn from_pattern(byte: u8) -> Entry {
        let left = u16::from_pattern(byte);
        Entry { kind: byte, bus: !byte, address: byte.rotate_left(3), padding: byte ^ 0x5A, left }
    }
}

impl Debug for Entry {
    fn fmt(&self, f: &mut fmt::Formatter) -> fmt::Result {
        let Entry { kind, bus, address, padding, left } = self;
        write!(f, "kind {kind} bus {bus} address {address} left {left} byte-3 {padding:02X}")
    }
}

impl UpperHex for Entry {
    fn fmt(&self, f: &mut fmt::Formatter) -> fmt::Result {
        Debug::fmt(self, f)
    }
}

impl Smaller for Entry {
    fn smaller(&self) -> Vec<Entry> {
        let mut all = vec![Entry::default()];
        all.extend(self.kind.smaller().into_iter().map(|kind| Entry { kind, ..*self }));
        all.extend(self.bus.smaller().into_iter().map(|bus| Entry { bus, ..*self }));
        all.extend(self.address.smaller().into_iter().map(|address| Entry { address, ..*self }));
        all.extend(self.padding.smaller().into_iter().map(|padding| Entry { padding, ..*self }));
        all.extend(self.left.smaller().into_iter().map(|left| Entry { left, ..*self }));
        all.retain(|entry| entry != self);
        all
    }
}

/// The places of a table; those of nothing but zeros are not printed.
#[derive(Clone)]
pub struct Table(pub Vec<Entry>);

impl Debug for Table {
    fn fmt(&self, f: &mut fmt::Formatter) -> fmt::Result {
        write!(f, "[{} places:", self.0.len())?;
        for (at, entry) in self.0.iter().enumerate().filter(|(_, entry)| **entry != Entry::default()) {
            write!(f, " {at} ({entry:?})")?;
        }
        write!(f, "]")
    }
}

impl Smaller for Table {
    fn smaller(&self) -> Vec<Table> {
        self.0.smaller().into_iter().map(Table).collect()
    }
}

// ---- Orders

/// An enum of orders whose numbers can each be made smaller.
macro_rules! orders {
    ($($name:ident { $($field:ident: $type:ty),* }),* $(,)?) => {
        #[derive(Clone, Debug)]
        pub enum Order { $($name { $($field: $type),* }),* }

        impl Smaller for Order {
            fn smaller(&self) -> Vec<Order> {
                #[allow(unused_mut)]
                let mut all = Vec::new();
                match self {$(
                    Order::$name { $($field),* } => {
                        $(for number in $field.smaller() {
                            let mut changed = self.clone();
                            if let Order::$name { $field, .. } = &mut changed {
                                *$field = number;
                            }
                            all.push(changed);
                        })*
                    }
                )*}
                all
            }
        }
    };
}

orders! {
    Open { bus: u8, address: u8, kind: u8, lease: u32 },
    Close { bus: u8, address: u8, kind: u8 },
    Restart { bus: u8, address: u8 },
    Poll {},
    List { room: usize },
    Reply { address: u8, request: u8, refusal: u8, lease: u32 },
    Acknowledged { address: u8, code: u16, lease: u32 },
}

impl Order {
    /// Gives the order; the room is the list's, and only a list counts.
    pub fn given(&self, on: &dyn Interface, table: &mut [Entry], room: &mut [Entry]) -> Listed {
        let refusal = match *self {
            Order::List { .. } => return on.board_list(table, room),
            Order::Open { bus, address, kind, lease } => on.board_open(table, bus, address, kind, lease),
            Order::Close { bus, address, kind } => on.board_close(table, bus, address, kind),
            Order::Restart { bus, address } => on.board_restart(table, bus, address),
            Order::Poll {} => on.board_poll(table),
            Order::Reply { address, request, refusal, lease } => {
                on.board_reply(table, address, request, refusal, lease)
            }
            Order::Acknowledged { address, code, lease } => on.board_acknowledged(table, address, code, lease),
        };
        Listed { refusal, count: 0 }
    }

    pub fn room(&self) -> usize {
        match self {
            Order::List { room } => *room,
            _ => 0,
        }
    }
}

// ---- Cases

/// A table that the library is lent from call to call, and what the reference says of it.
struct Lending {
    library: Library,
    expected: Lent<Entry>,
    found: Lent<Entry>,
    salt: u32,
}

impl Lending {
    fn of(table: &[Entry], salt: u32) -> Lending {
        let expected = Lent::holding(table, salt);
        Lending { library: Library { null_for_empty: salt % 2 == 1 }, found: expected.clone(), expected, salt }
    }

    /// Gives an order to both and says what differs: in the answer, the table, or the list's room.
    fn give(&mut self, order: &Order) -> Result<(), String> {
        self.salt = self.salt.wrapping_add(7);
        let mut expected_room = Lent::room(order.room(), self.salt);
        let mut room = expected_room.clone();
        let expected = order.given(&Reference, self.expected.slice(), expected_room.slice());
        let found = order.given(&self.library, self.found.slice(), room.slice());
        if expected != found {
            return Err(format!("answer: expected {expected:?}, found {found:?}"));
        }
        for (name, expected, found) in [("table", &self.expected, &self.found), ("room", &expected_room, &room)] {
            if let Some(text) = expected.difference(found) {
                return Err(format!("{name}, {text}"));
            }
        }
        Ok(())
    }
}

case! {
    /// One order on any table.
    OnTable { table: Table, order: Order, salt: u32 }
}

impl Case for OnTable {
    fn fault(&self) -> Option<String> {
        Lending::of(&self.table.0, self.salt).give(&self.order).err()
    }
}

case! {
    /// Orders one after another from the empty table.
    Orders { orders: Vec<Order>, salt: u32 }
}

/// A free place; byte 3 may hold anything.
pub fn free(padding: u8) -> Entry {
    Entry { padding, ..Entry::default() }
}

impl Case for Orders {
    fn calls(&self) -> u64 {
        self.orders.len() as u64
    }

    fn fault(&self) -> Option<String> {
        let mut lending = Lending::of(&[free(self.salt as u8); PLACES], self.salt);
        let mut faults = self.orders.iter().enumerate().map(|(at, order)| (at, lending.give(order)));
        faults.find_map(|(at, given)| given.err().map(|text| format!("order {at}: {text}")))
    }
}
