//! The library behind the interface: the C declarations, and each slice passed as a pointer and a length.

use crate::interface::*;
use std::ptr::{null, null_mut};

extern "C" {
    fn mfc_checksum(bytes: *const u8, n: usize) -> u8;
    fn mfc_crc(start: u8, bytes: *const u8, n: usize) -> u8;
    fn mfc_write_request(address: u8, request: u8, value: u32, out: *mut u8, room: usize) -> Written;
    fn mfc_write_request_at(
        buffer: *mut u8,
        size: usize,
        start: usize,
        address: u8,
        request: u8,
        value: u32,
    ) -> Written;
    fn mfc_read_request(body: *const u8, n: usize) -> Request;
    fn mfc_write_reply(
        address: u8,
        request: u8,
        value: u32,
        reply: u8,
        reply_value: u32,
        text: *const u8,
        n: usize,
        bit7: u8,
        out: *mut u8,
        room: usize,
    ) -> Written;
    fn mfc_read_reply(address: u8, request: u8, value: u32, body: *const u8, n: usize) -> Reply;
    fn mfc_receiver_fresh(kind: u8, record: *mut u8, size: usize) -> u8;
    fn mfc_feed(
        record: *mut u8,
        size: usize,
        silence: u8,
        piece: *const u8,
        n: usize,
        frame: *mut u8,
        room: usize,
    ) -> Fed;
    fn mfc_receiver_noise(record: *const u8, size: usize) -> Noise;
    fn mfc_read_words(start: u8, bytes: *const u8, n: usize, words: *mut u16, room: usize) -> Words;
    fn mfc_write_words(start: u8, words: *const u16, n: usize, out: *mut u8, room: usize) -> Written;
    fn mfc_write_sfc6(code: u16, concentration: u32, out: *mut u8, room: usize) -> Written;
    fn mfc_write_liquid(code: u8, value: u16, out: *mut u8, room: usize) -> Written;
    fn mfc_edit_user(value: u16, field: u32) -> Register;
    fn mfc_edit_advanced(value: u16, field: u32) -> Register;
    fn mfc_scaled(raw: i16, offset: i16, scale: i32) -> Thousandths;
    fn mfc_scaled_float(raw: i16, offset: i16, scale: i32) -> Quantity;
    fn mfc_board_open(table: *mut Entry, places: usize, bus: u8, address: u8, kind: u8, lease: u32) -> u8;
    fn mfc_board_close(table: *mut Entry, places: usize, bus: u8, address: u8, kind: u8) -> u8;
    fn mfc_board_restart(table: *mut Entry, places: usize, bus: u8, address: u8) -> u8;
    fn mfc_board_poll(table: *mut Entry, places: usize) -> u8;
    fn mfc_board_list(table: *const Entry, places: usize, entries: *mut Entry, room: usize) -> Listed;
    fn mfc_board_reply(table: *mut Entry, places: usize, address: u8, request: u8, refusal: u8, lease: u32) -> u8;
    fn mfc_board_acknowledged(table: *mut Entry, places: usize, address: u8, code: u16, lease: u32) -> u8;
    fn mfc_log_empty(file: *mut u8, room: usize) -> Written;
    fn mfc_log_append(file: *mut u8, room: usize, length: usize, kind: u8, body: *const u8, n: usize) -> Written;
    fn mfc_log_check(file: *const u8, length: usize) -> Words;
    fn mfc_log_list(file: *const u8, length: usize, skip: usize, rows: *mut u16, room: usize) -> Words;
    fn mfc_log_replay(file: *const u8, length: usize, lease: u32, entries: *mut Entry, room: usize) -> Listed;
}

/// The library; an empty slice goes over as NULL where that is asked for, else as a pointer that must not be followed.
pub struct Library {
    pub null_for_empty: bool,
}

impl Library {
    fn read<T>(&self, slice: &[T]) -> *const T {
        if slice.is_empty() && self.null_for_empty {
            null()
        } else {
            slice.as_ptr()
        }
    }

    fn write<T>(&self, slice: &mut [T]) -> *mut T {
        if slice.is_empty() && self.null_for_empty {
            null_mut()
        } else {
            slice.as_mut_ptr()
        }
    }
}

// Each call passes slices that live through it and do not overlap, which is all that the header asks of a caller.
impl Interface for Library {
    fn checksum(&self, bytes: &[u8]) -> u8 {
        unsafe { mfc_checksum(self.read(bytes), bytes.len()) }
    }

    fn crc(&self, start: u8, bytes: &[u8]) -> u8 {
        unsafe { mfc_crc(start, self.read(bytes), bytes.len()) }
    }

    fn write_request(&self, address: u8, request: u8, value: u32, out: &mut [u8]) -> Written {
        unsafe { mfc_write_request(address, request, value, self.write(out), out.len()) }
    }

    fn write_request_at(&self, buffer: &mut [u8], start: usize, address: u8, request: u8, value: u32) -> Written {
        unsafe { mfc_write_request_at(self.write(buffer), buffer.len(), start, address, request, value) }
    }

    fn read_request(&self, body: &[u8]) -> Request {
        unsafe { mfc_read_request(self.read(body), body.len()) }
    }

    fn write_reply(
        &self,
        address: u8,
        request: u8,
        value: u32,
        reply: u8,
        reply_value: u32,
        text: &[u8],
        bit7: u8,
        out: &mut [u8],
    ) -> Written {
        let (text, n) = (self.read(text), text.len());
        let (out, room) = (self.write(out), out.len());
        unsafe { mfc_write_reply(address, request, value, reply, reply_value, text, n, bit7, out, room) }
    }

    fn read_reply(&self, address: u8, request: u8, value: u32, body: &[u8]) -> Reply {
        unsafe { mfc_read_reply(address, request, value, self.read(body), body.len()) }
    }

    fn receiver_fresh(&self, kind: u8, record: &mut [u8]) -> u8 {
        unsafe { mfc_receiver_fresh(kind, self.write(record), record.len()) }
    }

    fn feed(&self, record: &mut [u8], silence: u8, piece: &[u8], frame: &mut [u8]) -> Fed {
        let (record, size) = (self.write(record), record.len());
        let (frame, room) = (self.write(frame), frame.len());
        unsafe { mfc_feed(record, size, silence, self.read(piece), piece.len(), frame, room) }
    }

    fn receiver_noise(&self, record: &[u8]) -> Noise {
        unsafe { mfc_receiver_noise(self.read(record), record.len()) }
    }

    fn read_words(&self, start: u8, bytes: &[u8], words: &mut [u16]) -> Words {
        unsafe { mfc_read_words(start, self.read(bytes), bytes.len(), self.write(words), words.len()) }
    }

    fn write_words(&self, start: u8, words: &[u16], out: &mut [u8]) -> Written {
        unsafe { mfc_write_words(start, self.read(words), words.len(), self.write(out), out.len()) }
    }

    fn write_sfc6(&self, code: u16, concentration: u32, out: &mut [u8]) -> Written {
        unsafe { mfc_write_sfc6(code, concentration, self.write(out), out.len()) }
    }

    fn write_liquid(&self, code: u8, value: u16, out: &mut [u8]) -> Written {
        unsafe { mfc_write_liquid(code, value, self.write(out), out.len()) }
    }

    fn edit_user(&self, value: u16, field: u32) -> Register {
        unsafe { mfc_edit_user(value, field) }
    }

    fn edit_advanced(&self, value: u16, field: u32) -> Register {
        unsafe { mfc_edit_advanced(value, field) }
    }

    fn scaled(&self, raw: i16, offset: i16, scale: i32) -> Thousandths {
        unsafe { mfc_scaled(raw, offset, scale) }
    }

    fn scaled_float(&self, raw: i16, offset: i16, scale: i32) -> Quantity {
        unsafe { mfc_scaled_float(raw, offset, scale) }
    }

    fn board_open(&self, table: &mut [Entry], bus: u8, address: u8, kind: u8, lease: u32) -> u8 {
        unsafe { mfc_board_open(self.write(table), table.len(), bus, address, kind, lease) }
    }

    fn board_close(&self, table: &mut [Entry], bus: u8, address: u8, kind: u8) -> u8 {
        unsafe { mfc_board_close(self.write(table), table.len(), bus, address, kind) }
    }

    fn board_restart(&self, table: &mut [Entry], bus: u8, address: u8) -> u8 {
        unsafe { mfc_board_restart(self.write(table), table.len(), bus, address) }
    }

    fn board_poll(&self, table: &mut [Entry]) -> u8 {
        unsafe { mfc_board_poll(self.write(table), table.len()) }
    }

    fn board_list(&self, table: &[Entry], entries: &mut [Entry]) -> Listed {
        unsafe { mfc_board_list(self.read(table), table.len(), self.write(entries), entries.len()) }
    }

    fn board_reply(&self, table: &mut [Entry], address: u8, request: u8, refusal: u8, lease: u32) -> u8 {
        unsafe { mfc_board_reply(self.write(table), table.len(), address, request, refusal, lease) }
    }

    fn board_acknowledged(&self, table: &mut [Entry], address: u8, code: u16, lease: u32) -> u8 {
        unsafe { mfc_board_acknowledged(self.write(table), table.len(), address, code, lease) }
    }

    fn log_empty(&self, file: &mut [u8]) -> Written {
        unsafe { mfc_log_empty(self.write(file), file.len()) }
    }

    fn log_append(&self, file: &mut [u8], length: usize, kind: u8, body: &[u8]) -> Written {
        unsafe { mfc_log_append(self.write(file), file.len(), length, kind, self.read(body), body.len()) }
    }

    fn log_check(&self, file: &[u8]) -> Words {
        unsafe { mfc_log_check(self.read(file), file.len()) }
    }

    fn log_list(&self, file: &[u8], skip: usize, rows: &mut [u16]) -> Words {
        unsafe { mfc_log_list(self.read(file), file.len(), skip, self.write(rows), rows.len()) }
    }

    fn log_replay(&self, file: &[u8], lease: u32, entries: &mut [Entry]) -> Listed {
        unsafe { mfc_log_replay(self.read(file), file.len(), lease, self.write(entries), entries.len()) }
    }
}
