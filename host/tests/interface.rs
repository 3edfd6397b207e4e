//! The C interface seen from Rust: the answers field for field, and one method for each exported function.
//! The reference and the library both stand behind it, so that a test is the same call made on each.

/// A writer's answer.
#[repr(C)]
#[derive(Clone, Copy, Debug, Default, PartialEq, Eq)]
pub struct Written {
    pub refusal: u8,
    pub length: usize,
}

/// A request taken from a body.
#[repr(C)]
#[derive(Clone, Copy, Debug, Default, PartialEq, Eq)]
pub struct Request {
    pub refusal: u8,
    pub address: u8,
    pub request: u8,
    pub value: u32,
}

/// A reply taken from a body; its text is a place and a length in that body.
#[repr(C)]
#[derive(Clone, Copy, Debug, Default, PartialEq, Eq)]
pub struct Reply {
    pub refusal: u8,
    pub code: u8,
    pub bit7: u8,
    pub reply: u8,
    pub value: u32,
    pub text_start: usize,
    pub text_length: usize,
}

/// What one call gave; the place is that of the fault with refusals 3 and 4, else 0.
#[repr(C)]
#[derive(Clone, Copy, Debug, Default, PartialEq, Eq)]
pub struct Fed {
    pub refusal: u8,
    pub place: u16,
    pub frame_length: usize,
    pub taken: usize,
}

/// The bytes that a receiver has thrown away as noise; 0 with a refusal.
#[repr(C)]
#[derive(Clone, Copy, Debug, Default, PartialEq, Eq)]
pub struct Noise {
    pub refusal: u8,
    pub count: u32,
}

/// Words read, the records of a log or the rows listed; with refusal 17 the count is the first wrong word's index.
#[repr(C)]
#[derive(Clone, Copy, Debug, Default, PartialEq, Eq)]
pub struct Words {
    pub refusal: u8,
    pub count: usize,
}

/// An edited register.
#[repr(C)]
#[derive(Clone, Copy, Debug, Default, PartialEq, Eq)]
pub struct Register {
    pub refusal: u8,
    pub value: u16,
}

/// A reading in thousandths of the unit.
#[repr(C)]
#[derive(Clone, Copy, Debug, Default, PartialEq, Eq)]
pub struct Thousandths {
    pub refusal: u8,
    pub value: i32,
}

/// A reading in single precision.
#[repr(C)]
#[derive(Clone, Copy, Debug, Default)]
pub struct Quantity {
    pub refusal: u8,
    pub value: f32,
}

/// A place of the handover board's table. C leaves byte 3 free; it has a name here, so that every byte can be compared.
#[repr(C)]
#[derive(Clone, Copy, Default, PartialEq, Eq)]
pub struct Entry {
    pub kind: u8,
    pub bus: u8,
    pub address: u8,
    pub padding: u8,
    pub left: u16,
}

/// Entries listed.
#[repr(C)]
#[derive(Clone, Copy, Debug, Default, PartialEq, Eq)]
pub struct Listed {
    pub refusal: u8,
    pub count: usize,
}

/// Floats are compared by bits: -0 is not 0, and a NaN is itself.
impl PartialEq for Quantity {
    fn eq(&self, other: &Quantity) -> bool {
        self.refusal == other.refusal && self.value.to_bits() == other.value.to_bits()
    }
}

/// The exported functions, on slices.
pub trait Interface {
    fn checksum(&self, bytes: &[u8]) -> u8;
    fn crc(&self, start: u8, bytes: &[u8]) -> u8;
    fn write_request(&self, address: u8, request: u8, value: u32, out: &mut [u8]) -> Written;
    fn write_request_at(&self, buffer: &mut [u8], start: usize, address: u8, request: u8, value: u32) -> Written;
    fn read_request(&self, body: &[u8]) -> Request;
    #[allow(clippy::too_many_arguments)]
    fn write_reply(
        &self,
        address: u8,
        request: u8,
        value: u32,
        reply: u8,
        reply_value: u32,
        text: &[u8],
        bit7: u8,
        out: &mut [u8],
    ) -> Written;
    fn read_reply(&self, address: u8, request: u8, value: u32, body: &[u8]) -> Reply;
    fn receiver_fresh(&self, kind: u8, record: &mut [u8]) -> u8;
    fn feed(&self, record: &mut [u8], silence: u8, piece: &[u8], frame: &mut [u8]) -> Fed;
    fn receiver_noise(&self, record: &[u8]) -> Noise;
    fn read_words(&self, start: u8, bytes: &[u8], words: &mut [u16]) -> Words;
    fn write_words(&self, start: u8, words: &[u16], out: &mut [u8]) -> Written;
    fn write_sfc6(&self, code: u16, concentration: u32, out: &mut [u8]) -> Written;
    fn write_liquid(&self, code: u8, value: u16, out: &mut [u8]) -> Written;
    fn edit_user(&self, value: u16, field: u32) -> Register;
    fn edit_advanced(&self, value: u16, field: u32) -> Register;
    fn scaled(&self, raw: i16, offset: i16, scale: i32) -> Thousandths;
    fn scaled_float(&self, raw: i16, offset: i16, scale: i32) -> Quantity;
    fn board_open(&self, table: &mut [Entry], bus: u8, address: u8, kind: u8, lease: u32) -> u8;
    fn board_close(&self, table: &mut [Entry], bus: u8, address: u8, kind: u8) -> u8;
    fn board_restart(&self, table: &mut [Entry], bus: u8, address: u8) -> u8;
    fn board_poll(&self, table: &mut [Entry]) -> u8;
    fn board_list(&self, table: &[Entry], entries: &mut [Entry]) -> Listed;
    fn board_reply(&self, table: &mut [Entry], address: u8, request: u8, refusal: u8, lease: u32) -> u8;
    fn board_acknowledged(&self, table: &mut [Entry], address: u8, code: u16, lease: u32) -> u8;
    fn log_empty(&self, file: &mut [u8]) -> Written;
    fn log_append(&self, file: &mut [u8], length: usize, kind: u8, body: &[u8]) -> Written;
    fn log_check(&self, file: &[u8]) -> Words;
    fn log_list(&self, file: &[u8], skip: usize, rows: &mut [u16]) -> Words;
    fn log_replay(&self, file: &[u8], lease: u32, entries: &mut [Entry]) -> Listed;
}
