//! Every exported function against the reference: known answers, all of what can be tried whole, and random cases.
//!
//! MFC_SEED or the first argument sets the seed, MFC_ONLY runs the sections whose name holds it, and MFC_PERCENT takes
//! that share of the random cases (100 is the usual run).

mod board;
mod board_cases;
mod board_generate;
mod board_sections;
mod board_vectors;
mod cases;
mod engines;
mod generate;
mod harness;
mod interface;
mod library;
mod log;
mod log_cases;
mod log_generate;
mod log_sections;
mod log_vectors;
mod reference;
mod replay;
mod replay_cases;
mod replay_generate;
mod replay_sections;
mod replay_vectors;
mod runs;
mod vectors;

use cases::*;
use harness::*;
use interface::Interface;
use library::Library;
use reference::*;

fn salt(section: &mut Section) -> u32 {
    section.random.u32() >> 1
}

// ---- Checksum and CRC

fn checksum_section(section: &mut Section) {
    for n in 0..section.times(300_000) {
        let length = if n % 50 == 0 { section.random.below(5000) } else { section.random.below(270) };
        let bytes = Hex(generate::some_bytes(&mut section.random, length));
        let salt = salt(section);
        section.check(Checksum { bytes, salt });
    }
}

fn crc_section(section: &mut Section) {
    for start in 0..=255 {
        for byte in 0..=255 {
            section.check(Crc { start, bytes: Hex(vec![byte]), salt: 0 });
        }
    }
    for word in 0..=u16::MAX {
        for start in [0x00, 0xFF] {
            section.check(Crc { start, bytes: Hex(word.to_be_bytes().to_vec()), salt: u32::from(word) });
        }
    }
    for _ in 0..section.times(200_000) {
        let length = if section.random.one_in(50) { section.random.below(600) } else { section.random.below(40) };
        let bytes = Hex(generate::some_bytes(&mut section.random, length));
        let (start, salt) = (section.random.byte(), salt(section));
        section.check(Crc { start, bytes, salt });
    }
}

// ---- Requests

fn write_request_section(section: &mut Section) {
    for address in 0..=255 {
        for request in 0..=255 {
            let random = &mut section.random;
            let value = generate::value_for(random, generate::request_field(request));
            section.check(WriteRequest { address, request, value, room: 64, salt: u32::from(address) });
        }
    }
    for _ in 0..section.times(600_000) {
        let random = &mut section.random;
        let (address, request) = (generate::address(random), generate::request(random));
        let value = generate::value_for(random, generate::request_field(request));
        let needed = request_frame(address, request, value).map_or(12, |frame| frame.len());
        let room = generate::room(random, needed);
        let salt = salt(section);
        section.check(WriteRequest { address, request, value, room, salt });
    }
}

/// Every room up to and past what is needed, for every request.
fn rooms_section(section: &mut Section) {
    for request in 0..21 {
        for room in 0..24 {
            for _ in 0..40 {
                let random = &mut section.random;
                let address = generate::address(random);
                let value = generate::value_for(random, generate::request_field(request));
                let salt = salt(section);
                section.check(WriteRequest { address, request, value, room, salt });
            }
        }
    }
}

fn write_request_at_section(section: &mut Section) {
    for _ in 0..section.times(400_000) {
        let random = &mut section.random;
        let (address, request) = (generate::address(random), generate::request(random));
        let value = generate::value_for(random, generate::request_field(request));
        let needed = request_frame(address, request, value).map_or(12, |frame| frame.len());
        let start = random.below(30);
        let size = start + generate::room(random, needed);
        let start = match random.below(12) {
            0 => size,
            1 => size + 1,
            2 => usize::MAX - random.below(40),
            3 => random.below(size + 40),
            _ => start,
        };
        let salt = salt(section);
        section.check(WriteRequestAt { size, start, address, request, value, salt });
    }
}

fn polling_section(section: &mut Section) {
    for _ in 0..section.times(100_000) {
        let salt = salt(section);
        let round = generate::round(&mut section.random, salt);
        section.check(round);
    }
}

fn read_request_section(section: &mut Section) {
    for _ in 0..section.times(900_000) {
        let random = &mut section.random;
        let near = generate::near_request_body(random);
        let body = Body(generate::offered_body(random, Kind::Request, near), Kind::Request);
        let salt = salt(section);
        section.check(ReadRequest { body, salt });
    }
}

/// Every command with every length, a subcommand of the table first; then every command with every first byte.
fn every_command_section(section: &mut Section) {
    for command in 0..=255 {
        for length in 0..=255 {
            let mut whole = vec![generate::address(&mut section.random), command, length];
            whole.extend(generate::some_bytes(&mut section.random, usize::from(length)));
            if length > 0 && length % 4 > 0 {
                whole[3] = section.random.pick(&[0x00, 0x01, 0x02, 0x03, 0x10, 0x14]);
            }
            section.check(ReadRequest { body: Body(body(&whole), Kind::Request), salt: u32::from(length) });
        }
        for sub in 0..=255 {
            for after in [0, 1, 2, 4, 5] {
                let mut whole = vec![0, command, after + 1, sub];
                whole.extend(generate::wire_bytes(&mut section.random, usize::from(after)));
                section.check(ReadRequest { body: Body(body(&whole), Kind::Request), salt: u32::from(sub) });
            }
        }
    }
}

// ---- Replies

/// A request that a reply may be asked for: mostly good, else with a value of its own to refuse.
fn asked(random: &mut Random) -> (u8, u8, u32) {
    let request = generate::request(random);
    let address = if random.one_in(6) { generate::address(random) } else { random.below(255) as u8 };
    let value = generate::value_for(random, generate::request_field(request));
    if request_frame(address, request, value).is_err() && !random.one_in(4) {
        return (address % 255, random.pick(&[0, 2, 3, 5, 7, 8, 9, 10, 12, 13, 16, 18, 20]), value);
    }
    (address, request, value)
}

fn write_reply_section(section: &mut Section) {
    for _ in 0..section.times(800_000) {
        let random = &mut section.random;
        let (address, request, value) = asked(random);
        let expected = ROWS.get(usize::from(request)).map_or(0, |row| row.reply);
        let reply = match random.below(8) {
            0 => random.below(17) as u8,
            1 => DEVICE_ERROR,
            2 => random.byte(),
            _ => expected,
        };
        let field = REPLIES.get(usize::from(reply)).map_or(Field::U32, |field| *field);
        let reply_value = generate::value_for(random, field);
        let text = if reply == PRODUCT_TYPE || random.one_in(8) { generate::text(random) } else { Vec::new() };
        let bit7 = random.pick(&[0, 0, 1, 0x80, 0xFF, 2]);
        let frame = reply_frame((address, request, value), reply, reply_value, &text, bit7 != 0);
        let room = generate::room(random, frame.map_or(12, |frame| frame.len()));
        let salt = salt(section);
        let text = Hex(text);
        section.check(WriteReply { address, request, value, reply, reply_value, text, bit7, room, salt });
    }
}

/// Every request with every number of a reply.
fn every_reply_section(section: &mut Section) {
    for request in 0..=22 {
        for reply in 0..=255 {
            for _ in 0..8 {
                let random = &mut section.random;
                let address = random.pick(&[0, 1, 0x7E, 254, 255]);
                let value = generate::value_for(random, generate::request_field(request));
                let field = REPLIES.get(usize::from(reply)).map_or(Field::U32, |field| *field);
                let reply_value = generate::value_for(random, field);
                let (bit7, salt) = (random.below(2) as u8, salt(section));
                let (text, room) = (Hex(b"text".to_vec()), 40);
                section.check(WriteReply { address, request, value, reply, reply_value, text, bit7, room, salt });
            }
        }
    }
}

fn read_reply_section(section: &mut Section) {
    for _ in 0..section.times(1_000_000) {
        let random = &mut section.random;
        let (address, request, value) = asked(random);
        let near = generate::near_reply_body(random, address, request);
        let body = Body(generate::offered_body(random, Kind::Reply, near), Kind::Reply);
        let salt = salt(section);
        section.check(ReadReply { address, request, value, body, salt });
    }
}

/// Every request with every state byte and every short length, and some of every length.
fn every_state_section(section: &mut Section) {
    for request in 0..21 {
        let row = ROWS[usize::from(request)];
        for state in 0..=255 {
            for length in (0..8).chain([section.random.below(256) as u8]) {
                let random = &mut section.random;
                let value = generate::value_for(random, row.request);
                let mut whole = vec![9, row.command, state, length];
                whole.extend(generate::some_bytes(random, usize::from(length)));
                let salt = salt(section);
                let body = Body(body(&whole), Kind::Reply);
                section.check(ReadReply { address: 9, request, value, body, salt });
            }
        }
        for length in 0..=255 {
            let mut whole = vec![9, row.command, 0, length];
            whole.extend(generate::some_bytes(&mut section.random, usize::from(length)));
            let value = if row.request == Field::Baud { 9600 } else { 0 };
            let body = Body(body(&whole), Kind::Reply);
            section.check(ReadReply { address: 9, request, value, body, salt: 0 });
        }
    }
}

/// The reply to a question for validity with this byte, as it stands on the wire.
fn validity_wire(address: u8, bit7: u8, byte: u8) -> Vec<u8> {
    wire(&body(&[address, 0x40, 128 * bit7, 1, byte]))
}

/// 02 (ii), by its own words and not by the reference's reader and writer: every byte but 0 is read as yes, and what was
/// read is written as 01 or 00, so that the bytes are the same for 00 and 01 alone; read again it is the same.
fn every_validity_section(section: &mut Section) {
    let library = Library { null_for_empty: false };
    for (address, bit7) in (0..255).flat_map(|address| [(address, 0), (address, 1)]) {
        let index = section.random.u32();
        for byte in 0..=255 {
            let on_wire = validity_wire(address, bit7, byte);
            let read = library.read_reply(address, 11, index, &body_by_library(section, 1, &on_wire));
            let value = if byte == 0 { 0 } else { 1 };
            let yes_or_no = interface::Reply { bit7, reply: 9, value, ..Default::default() };
            section.expect("a byte of validity", yes_or_no, read);
            let mut out = [0; 16];
            let written = library.write_reply(address, 11, index, read.reply, read.value, &[], read.bit7, &mut out);
            let again = &out[..written.length];
            section.expect(
                "what was read",
                (0, &validity_wire(address, bit7, value as u8)[..]),
                (written.refusal, again),
            );
            section.expect("the same bytes", byte < 2, again == on_wire);
            let body = body_by_library(section, 1, again);
            section.expect("a validity read again", read, library.read_reply(address, 11, index, &body));
        }
    }
}

/// Every value but 0 that the writer is offered is yes, and is sent as 01.
fn validity_values_section(section: &mut Section) {
    let library = Library { null_for_empty: false };
    for (address, bit7) in (0..255).flat_map(|address| [(address, 0), (address, 1)]) {
        let random = &mut section.random;
        let (index, any) = (random.u32(), random.u32() | 1);
        let powers = (0..32).map(|bit| 1 << bit);
        for value in (0..1024).chain(powers).chain([u32::MAX, any]) {
            let mut out = [0; 16];
            let written = library.write_reply(address, 11, index, 9, value, &[], bit7, &mut out);
            let expected = validity_wire(address, bit7, if value == 0 { 0 } else { 1 });
            section.expect("a value of validity", (0, &expected[..]), (written.refusal, &out[..written.length]));
        }
    }
}

// ---- The receiver

fn fresh_section(section: &mut Section) {
    for kind in 0..=255 {
        for size in [0, 1, 3, 4, 5, 7, 8, 9, 259, 260, 263, 264, 265, 267, 268, 269, 300] {
            let salt = salt(section);
            section.check(Fresh { kind, size, salt });
        }
    }
    for size in 0..300 {
        for kind in 0..3 {
            section.check(Fresh { kind, size, salt: size as u32 });
        }
    }
}

/// Every stream of a few events from a small alphabet, in one piece and byte by byte, behind a 7E and as it is.
fn short_streams_section(section: &mut Section) {
    const ALPHABET: [u8; 7] = [0x7E, 0x7D, 0x11, 0x5E, 0x33, 0x00, 0x41];
    let event = |at: usize| ALPHABET.get(at).map_or(Event::Mark, |&byte| Event::Byte(byte));
    for (begin, longest) in [(vec![feed(&[DELIMITER])], 5), (Vec::new(), 4)] {
        for events in 0..=longest {
            for number in 0..8_usize.pow(events) {
                let stream: Vec<Event> = (0..events).map(|at| event(number >> (3 * at) & 7)).collect();
                for kind in 0..2 {
                    for widest in [1, 8] {
                        let steps = [&begin[..], &pieces(&stream, widest)].concat();
                        section.check(Series { kind, steps, salt: number as u32 });
                    }
                }
            }
        }
    }
}

/// A piece with room enough, each rest handed in again.
fn feed(piece: &[u8]) -> Step {
    Step::Feed { silence: 0, piece: Hex(piece.to_vec()), room: 260, again: true }
}

/// The same with silence before it.
fn after_silence(piece: &[u8]) -> Step {
    Step::Feed { silence: 1, piece: Hex(piece.to_vec()), room: 260, again: true }
}

/// A stream cut at its marks and into pieces of a size; each mark goes with the piece behind it, or with an empty one.
fn pieces(stream: &[Event], widest: usize) -> Vec<Step> {
    let mut steps = Vec::new();
    for (at, part) in stream.split(|event| *event == Event::Mark).enumerate() {
        let bytes = raw_bytes(part);
        let (first, rest) = bytes.split_at(if at > 0 { widest.min(bytes.len()) } else { 0 });
        if at > 0 {
            steps.push(after_silence(first));
        }
        steps.extend(rest.chunks(widest).map(feed));
    }
    steps
}

fn series_section(section: &mut Section) {
    for _ in 0..section.times(40_000) {
        let salt = salt(section);
        let series = generate::series(&mut section.random, salt);
        section.check(series);
    }
}

/// A stream cut at every two places, with a call of short room at the first cut and an empty piece at the second.
fn every_cut(section: &mut Section, kind: u8, stream: &[Event]) {
    for first in 0..=stream.len() {
        for second in first..=stream.len() {
            let mut steps = pieces(&stream[..first], usize::MAX);
            let silence = u8::from(stream.get(first) == Some(&Event::Mark));
            steps.push(Step::Feed { silence, piece: Hex(raw_bytes(&stream[first..])), room: 259, again: false });
            steps.extend(pieces(&stream[first..second], usize::MAX));
            steps.push(feed(&[]));
            steps.extend(pieces(&stream[second..], usize::MAX));
            section.check(Series { kind, steps, salt: first as u32 });
        }
    }
}

/// Short streams of any parts.
fn cuts_section(section: &mut Section) {
    for _ in 0..section.times(400) {
        let random = &mut section.random;
        let kind = random.below(2) as u8;
        let mut stream = generate::stream(random, kind_of(kind), 2);
        stream.truncate(40);
        every_cut(section, kind, &events_of(&stream));
    }
}

/// Many frames and faults in one piece, each rest handed in again.
fn long_pieces_section(section: &mut Section) {
    for _ in 0..section.times(3_000) {
        let random = &mut section.random;
        let kind = random.below(2) as u8;
        let stream = generate::stream(random, kind_of(kind), 40);
        let salt = salt(section);
        section.check(Series { kind, steps: vec![feed(&stream)], salt });
    }
}

/// Bodies at 258 to 261 bytes and their neighbours, good but for at most one thing, in one piece or two.
fn largest_section(section: &mut Section) {
    for n in 0..section.times(40_000) {
        let random = &mut section.random;
        let kind = (n % 2) as u8;
        let size = 256 + n / 2 % 8;
        let mut stream = wire(&generate::sized_body(random, kind_of(kind), size));
        if random.one_in(3) {
            let at = random.between(1, stream.len() - 1);
            stream.insert(at, random.pick(&generate::STUFFING_BYTES));
        }
        let cut = random.below(stream.len());
        let steps = vec![feed(&stream[..cut]), feed(&stream[cut..])];
        let salt = salt(section);
        section.check(Series { kind, steps, salt });
    }
}

/// The refusals and places of the items in a stream that is cut into pieces of a size, by the library alone; a frame has neither.
fn refusals_in(kind: u8, stream: &[u8], widest: usize) -> Vec<(u8, u16)> {
    let library = Library { null_for_empty: false };
    let (mut record, mut buffer, mut all) = ([0; RECORD], [0; STORE], Vec::new());
    library.receiver_fresh(kind, &mut record);
    for piece in stream.chunks(widest) {
        let mut rest = piece;
        while !rest.is_empty() {
            let fed = library.feed(&mut record, 0, rest, &mut buffer);
            if (fed.refusal, fed.place, fed.frame_length) != (0, 0, 0) {
                all.push((fed.refusal, fed.place));
            }
            // Nothing taken of a piece that is not empty: no receiver does that, and this loop must end.
            rest = if fed.taken == 0 { &[] } else { rest.get(fed.taken..).unwrap_or(&[]) };
        }
    }
    all
}

/// A stream with a fault that was put at a known place, so that the expected answer is not the reference's.
struct Put {
    kind: u8,
    number: u8,
    place: usize,
    escapes: generate::Escapes,
    stream: Vec<u8>,
}

impl Put {
    /// Each of the places with each fault, each share of escapes before it, and both kinds.
    fn each(section: &mut Section, places: &[usize], mut body: impl FnMut(&mut Section, &Put)) {
        for &place in places {
            for (number, fault) in generate::FAULTS {
                for escapes in generate::ESCAPES {
                    for kind in 0..2 {
                        let stream = generate::faulty(&mut section.random, place, escapes, fault);
                        body(section, &Put { kind, number, place, escapes, stream });
                    }
                }
            }
        }
    }

    /// The library gives the fault's refusal with its place, and nothing else.
    fn told(&self, section: &mut Section, widest: usize) {
        let Put { kind, number, place, escapes, stream } = self;
        let what = format!("{number} at {place} in pieces of {widest}, kind {kind}, escapes before it: {escapes:?}");
        let expected = vec![(*number, (*place).min(65_535) as u16)];
        section.expect(&what, expected, refusals_in(*kind, stream, widest));
    }

    /// The stream up to a cut and then the rest, each in pieces of a size; in the rest each record is compared.
    fn cut_at(&self, cut: usize, before: usize, after: usize) -> Series {
        let (first, rest) = self.stream.split_at(cut);
        let mut steps = vec![Step::Parts { bytes: Hex(first.to_vec()), widest: before }];
        steps.extend(rest.chunks(after).map(feed));
        Series { kind: self.kind, steps, salt: cut as u32 }
    }
}

/// Faults around the sizes of a body and of its escapes: the place itself, then every record on the way to it.
fn places_section(section: &mut Section) {
    let places: Vec<usize> = (0..4).chain(258..264).chain(518..524).collect();
    Put::each(section, &places, |section, put| {
        for widest in [1, 16, put.stream.len()] {
            put.told(section, widest);
            let steps = put.stream.chunks(widest).map(feed).collect();
            section.check(Series { kind: put.kind, steps, salt: widest as u32 });
        }
        for cut in put.place.saturating_sub(2)..(put.place + 5).min(put.stream.len()) {
            section.check(put.cut_at(cut, STORE, put.stream.len()));
        }
    });
}

/// Faults around the last place that is told, around the end of the length in a record, and far past both.
fn far_places_section(section: &mut Section) {
    let places: Vec<usize> = (65_533..=65_537).chain([65_795, 70_000, 200_000]).collect();
    let mut turn = 0;
    Put::each(section, &places, |section, put| {
        for widest in if put.kind == 0 { [1, 4096] } else { [16, put.stream.len()] } {
            put.told(section, widest);
        }
        // Then against the reference, which takes longer: one way of cutting for each, and few with many calls.
        turn += 1;
        let cut = section.random.between(put.place - 2, put.place + 2);
        let before = match turn % 199 {
            0 => 1,
            1..=9 => 16,
            10..=99 => 4096,
            _ => cut,
        };
        let after = if turn % 12 == 0 { 1 } else { 70_000 };
        section.check(put.cut_at(cut, before, after));
    });
}

/// One call on a record of any kind: those that a stream leaves, and those out of range.
fn records_section(section: &mut Section) {
    for _ in 0..section.times(250_000) {
        let random = &mut section.random;
        let record = Hex(generate::record(random));
        let piece = match random.below(6) {
            0 => vec![DELIMITER],
            1 => Vec::new(),
            2 => generate::some_bytes(random, 300),
            _ => {
                let n = random.below(16);
                generate::wire_bytes(random, n)
            }
        };
        let room = random.pick(&[0, 259, 260, 260, 260, 260, 260, 300]);
        let silence = if random.one_in(3) { generate::silence(random) } else { 0 };
        let salt = salt(section);
        match section.random.below(8) {
            0 => section.check(ReceiverNoise { record, salt }),
            _ => section.check(Feed { record, silence, piece: Hex(piece), room, salt }),
        }
    }
}

/// Records in a stretch with the length around the store's and around its own end; stored bytes of which none, all or
/// some were received as two; then silence or none, plain bytes or escapes, and then nothing, an end or a fault.
fn lengths_section(section: &mut Section) {
    let stores: [&[u8]; 3] = [&[0x00], &[0x7E, 0x7D, 0x11, 0x13], &generate::STUFFING_BYTES];
    let between: [&[u8]; 6] = [&[], &[0x00], &[0x5E], &[0x7D, 0x5D], &[0x00, 0x7D, 0x31], &[0x33, 0x7D, 0x33, 0x00]];
    let ends: [&[u8]; 6] = [&[], &[0x7E], &[0x11, 0x7E], &[0x7D, 0x7E], &[0x7D, 0x41, 0x7E], &[0x13, 0x7D, 0x11]];
    let lengths = (0..3).chain(258..264).chain(65_273..65_278).chain(65_532..=65_535);
    for length in lengths {
        for (mode, store) in (1..5).flat_map(|mode| stores.map(|store| (mode, store))) {
            let random = &mut section.random;
            let mut record = generate::head(random.below(2) as u8, mode, length, generate::count(random));
            record.extend(store.iter().cycle().take(STORE));
            for (bytes, end) in between.iter().flat_map(|bytes| ends.map(|end| (bytes, end))) {
                for silence in [0, 1] {
                    let (record, piece) = (Hex(record.clone()), Hex([*bytes, end].concat()));
                    section.check(Feed { record, silence, piece, room: 260, salt: length as u32 });
                }
            }
        }
    }
}

/// Every kind and mode around their ranges with every length around its own, and every value of each field alone. In a
/// stretch no length is out of range, in noise all but 0.
fn ranges_section(section: &mut Section) {
    let pieces: [&[u8]; 6] = [&[], &[0x7E], &[0x00], &[0x5E, 0x7E], &[0x7D, 0x7E], &[0x11]];
    for kind in 0..3 {
        for mode in 0..6 {
            for length in (0..12).chain(250..270).chain([511, 512, 517, 0xFF00, 0xFFFD, 0xFFFE, 0xFFFF]) {
                let mut record = generate::head(kind, mode, length, generate::count(&mut section.random));
                record.extend(generate::wire_bytes(&mut section.random, STORE));
                for piece in pieces {
                    for (silence, room) in [(0, 259), (0, 260), (1, 259), (1, 260)] {
                        let (record, piece) = (Hex(record.clone()), Hex(piece.to_vec()));
                        section.check(Feed { record, silence, piece, room, salt: length as u32 });
                    }
                }
                section.check(ReceiverNoise { record: Hex(record), salt: length as u32 });
            }
        }
    }
    for (field, mode) in (0..HEAD).flat_map(|field| [(field, 0), (field, 1)]) {
        for byte in 0..=255 {
            let mut record = vec![0; RECORD];
            record[1] = mode;
            record[field] = byte;
            for piece in [&[][..], &[0x7E], &[0x00], &[0x00, 0x7E]] {
                for silence in [0, 1] {
                    let (record, piece) = (Hex(record.clone()), Hex(piece.to_vec()));
                    section.check(Feed { record, silence, piece, room: 260, salt: 0 });
                }
            }
            section.check(ReceiverNoise { record: Hex(record), salt: 0 });
        }
    }
}

// ---- The receiver's noise

/// Streams of which it is known how many bytes are noise: short ones cut at every two places, longer ones at any.
fn noise_cuts_section(section: &mut Section) {
    for n in 0..section.times(4_200) {
        let random = &mut section.random;
        let (kind, short) = (random.below(2) as u8, n % 21 == 0);
        let (parts, longest) = if short { (3, 5) } else { (random.between(1, 8), random.pick(&[3, 20, 250])) };
        let (stream, known) = generate::noisy(random, parts, longest);
        section.expect("the noise of a stream", known, noise(&stream));
        if short {
            every_cut(section, kind, &stream);
            continue;
        }
        let (mut steps, mut rest) = (Vec::new(), &stream[..]);
        while !rest.is_empty() {
            let (part, after) = rest.split_at(section.random.between(1, 2 * longest).min(rest.len()));
            steps.extend(pieces(part, usize::MAX));
            rest = after;
        }
        let salt = salt(section);
        section.check(Series { kind, steps, salt });
    }
}

/// Runs of noise around 256 and 65,536 bytes and far past them, before the first 7E and behind a mark.
fn noise_runs_section(section: &mut Section) {
    for n in (254..258).chain(65_534..65_539).chain([70_000, 200_000]) {
        for widest in [1, 2, 16, 4096, 65_535, 65_536, n] {
            let random = &mut section.random;
            let mut run = || Step::Parts { bytes: Hex(generate::noise_bytes(random, n)), widest };
            let (begun, mark) = (feed(&[DELIMITER, 0x00]), after_silence(&[]));
            let steps = vec![run(), begun, mark, run(), feed(&[DELIMITER, 0x11]), feed(&[DELIMITER])];
            section.check(Series { kind: (widest % 2) as u8, steps, salt: n as u32 });
        }
    }
}

/// Counts a little below the limit, and below each number at which another byte of the record changes: noise short of
/// it, up to it and past it, in one piece, byte by byte, and with a mark or a frame between.
fn noise_limit_section(section: &mut Section) {
    let frame = wire(&body(&[0x00, 0x45, 0x00]));
    for edge in generate::COUNT_EDGES {
        for below in (0..6).chain([254, 255, 256, 257, 300, 65_535, 65_536]) {
            let Some(count) = edge.checked_sub(below) else { continue };
            for n in [below.saturating_sub(1), below, below + 1, below + 2, below + 40] {
                let bytes = generate::noise_bytes(&mut section.random, n as usize);
                let (first, second) = bytes.split_at(section.random.below(bytes.len() + 1));
                let widest = if n < 1000 { 1 } else { 4096 };
                let begun = [first, &frame[..3]].concat();
                let framed = [first, &frame].concat();
                let ways = [
                    vec![feed(&bytes)],
                    vec![Step::Parts { bytes: Hex(bytes.clone()), widest }],
                    vec![feed(first), after_silence(second)],
                    vec![feed(&begun), after_silence(second)],
                    vec![feed(&framed), after_silence(&[]), feed(second), feed(&frame), after_silence(&bytes)],
                ];
                for (salt, steps) in (0..).zip(ways) {
                    let steps = [&[Step::Count(count)][..], &steps].concat();
                    section.check(Series { kind: (n % 2) as u8, steps, salt });
                }
            }
        }
    }
}

/// The count in any bytes of any length, which are only read; 2 where they are too few or a field is out of its range.
fn noise_asked_section(section: &mut Section) {
    for size in 0..RECORD + 40 {
        for mode in 0..6 {
            let count = generate::count(&mut section.random);
            let mut record = generate::head(mode % 2, mode, 0, count);
            record.resize(size, 0x7E);
            section.check(ReceiverNoise { record: Hex(record), salt: size as u32 });
        }
    }
    for _ in 0..section.times(60_000) {
        let random = &mut section.random;
        let size = random.below(2 * RECORD);
        let record = if random.one_in(4) { generate::some_bytes(random, size) } else { generate::record(random) };
        let salt = salt(section);
        section.check(ReceiverNoise { record: Hex(record), salt });
    }
}

// ---- Silence and bytes in one call, 02 (ix)

/// The calls that are refused before each one that is not: none, one for the room, one for the record, and more.
const SPOILT: [&[Spoilt]; 4] = [
    &[],
    &[Spoilt::Room(259)],
    &[Spoilt::Byte(1, 5, 260)],
    &[Spoilt::Room(0), Spoilt::Short(267, 260), Spoilt::Byte(0, 2, 0)],
];

/// Every stream of a few events with a mark among them, cut at every set of places.
fn silence_cuts_section(section: &mut Section) {
    const ALPHABET: [Event; 4] = [Event::Mark, Event::Byte(DELIMITER), Event::Byte(ESCAPE), Event::Byte(0x00)];
    for events in 1..=6 {
        for number in 0..1_usize << (2 * events) {
            let stream: Vec<Event> = (0..events).map(|at| ALPHABET[number >> (2 * at) & 3]).collect();
            if !stream.contains(&Event::Mark) {
                continue;
            }
            for set in 0..1_usize << (events - 1) {
                let cuts: Vec<usize> = (1..events).filter(|at| set >> (at - 1) & 1 == 1).collect();
                for refused in SPOILT {
                    let (stream, cuts, refused) = (stream.clone(), cuts.clone(), refused.to_vec());
                    section.check(Handed { kind: 0, stream, cuts, refused, flag: 1, salt: (number + set) as u32 });
                }
            }
        }
    }
}

/// Frames, a fault and a stretch that is begun: marks at every two places, or at one, and cuts at every two; among the
/// refused calls are those of every room under 260.
fn silence_places_section(section: &mut Section) {
    let request = [&wire(&body(&[0x00, 0x45, 0x00]))[..], &[0x11, DELIMITER, 0x00]].concat();
    let reply = [&[0x00][..], &wire(&body(&[0x00, 0x46, 0x20, 0x00])), &[ESCAPE, DELIMITER, ESCAPE]].concat();
    let pairs = |n: usize| (0..n).flat_map(move |first| (first..n).map(move |second| (first, second)));
    let mut turn = 0;
    for (kind, bytes) in (0..).zip([request, reply]) {
        let end = bytes.len();
        for (first, second) in pairs(end + 2).filter(|pair| pair.0 <= end) {
            let mut stream = events_of(&bytes);
            // A second place past the end stands for no second mark.
            if second <= end {
                stream.insert(second, Event::Mark);
            }
            stream.insert(first, Event::Mark);
            for (from, to) in pairs(stream.len()) {
                turn += 1;
                for refused in SPOILT.into_iter().chain([&[Spoilt::Room(turn % 260)][..]]) {
                    let (stream, cuts, refused) = (stream.clone(), vec![from, to], refused.to_vec());
                    section.check(Handed { kind, stream, cuts, refused, flag: 1, salt: turn as u32 });
                }
            }
        }
    }
}

fn silence_streams_section(section: &mut Section) {
    for _ in 0..section.times(30_000) {
        let salt = salt(section);
        let handed = generate::handed(&mut section.random, salt);
        section.check(handed);
    }
}

/// Every series of up to four calls from a few: with silence and without, with room enough and without.
fn silence_series_section(section: &mut Section) {
    const PIECES: [&[u8]; 7] =
        [&[], &[0x7E], &[0x00], &[0x7E, 0x00], &[0x00, 0x7E], &[0x7D, 0x7E, 0x11], &[0x7E, 0x00, 0x7E, 0x7D]];
    let with = |silence, room, piece: &[u8]| Step::Feed { silence, piece: Hex(piece.to_vec()), room, again: false };
    let with_room = PIECES.iter().flat_map(|piece| [with(0, 260, piece), with(1, 260, piece)]);
    let without = [with(0, 259, &[0x7E]), with(1, 259, &[0x7E, 0x00]), with(1, 259, &[])];
    let calls: Vec<Step> = with_room.chain(without).collect();
    for length in 1..=4 {
        for number in 0..calls.len().pow(length) {
            let steps = (0..length).map(|at| calls[number / calls.len().pow(at) % calls.len()].clone()).collect();
            section.check(Series { kind: (number % 2) as u8, steps, salt: number as u32 });
        }
    }
}

/// An empty piece on records of every mode and some that are out of range, with every room around 260 and every size
/// around a record's. What it gives is said here too, by 02 (ix)'s own words: 2, 1, 9 or nothing, and 0 bytes taken.
fn silence_alone_section(section: &mut Section) {
    let library = Library { null_for_empty: true };
    let lengths = [0, 1, 2, 4, 259, 260, 261, 4000, 65_535];
    for (kind, mode) in (0..3).flat_map(|kind| (0..6).map(move |mode| (kind, mode))) {
        for (length, silence) in lengths.into_iter().flat_map(|length| [(length, 0), (length, 1), (length, 0x80)]) {
            let mut whole = generate::head(kind, mode, length, generate::count(&mut section.random));
            whole.extend(generate::wire_bytes(&mut section.random, STORE));
            // In a stretch a byte was begun, unless it is plain (mode 1) and has no length yet.
            let begun = mode > 1 || mode == 1 && length > 0;
            let good = kind < 2 && mode < 5 && (mode > 0 || length == 0);
            let rooms = (0..=300).map(|room| (RECORD, room));
            let sizes = [0, 1, 4, 8, 260, 264, 267].into_iter().flat_map(|size| [(size, 0), (size, 259), (size, 260)]);
            for (size, room) in rooms.chain(sizes) {
                let (mut record, mut frame) = (whole[..size].to_vec(), vec![0x55; room]);
                let fed = library.feed(&mut record, silence, &[], &mut frame);
                let refusal = match (good && size == RECORD, room >= STORE, silence != 0 && begun) {
                    (false, _, _) => 2,
                    (true, false, _) => 1,
                    (true, true, true) => 9,
                    (true, true, false) => 0,
                };
                let mut expected = whole[..size].to_vec();
                if silence != 0 && [0, 9].contains(&refusal) {
                    expected[1..4].fill(0);
                }
                let answer = interface::Fed { refusal, ..Default::default() };
                let what = format!("silence {silence} alone, room {room}, a record of {size}: {:02X?}", &whole[..HEAD]);
                section.expect(&what, (answer, Hex(expected), Hex(vec![0x55; room])), (fed, Hex(record), Hex(frame)));
            }
            for room in [0, 259, 260, 261] {
                let (record, piece) = (Hex(whole.clone()), Hex(Vec::new()));
                section.check(Feed { record, silence, piece, room, salt: room as u32 });
            }
        }
    }
}

/// One call with every number for the silence: 0 is none, and all the others are alike.
fn silence_numbers_section(section: &mut Section) {
    for _ in 0..section.times(1_500) {
        let random = &mut section.random;
        let record = generate::record(random);
        let n = random.below(10);
        let piece = if random.one_in(3) { Vec::new() } else { generate::wire_bytes(random, n) };
        let (room, salt) = (random.pick(&[0, 259, 260, 260, 260, 300]), salt(section));
        for silence in 0..=255 {
            let (record, piece) = (Hex(record.clone()), Hex(piece.clone()));
            section.check(Feed { record, silence, piece, room, salt });
        }
    }
}

/// Any bytes for a record, silence or none, and any piece: at once and one after the other.
fn silence_at_once_section(section: &mut Section) {
    for _ in 0..section.times(150_000) {
        let random = &mut section.random;
        let size = random.below(2 * RECORD);
        let record = Hex(if random.one_in(8) { generate::some_bytes(random, size) } else { generate::record(random) });
        let n = random.pick(&[0, 1, 1, 2, 5, 12, 40, 300]);
        let piece = Hex(generate::some_bytes(random, n));
        let silence = if random.one_in(8) { 0 } else { generate::silence(random) };
        let room = if random.one_in(4) { random.below(270) } else { 260 };
        let salt = salt(section);
        section.check(AtOnce { record, silence, piece, room, salt });
    }
}

// ---- What is written is read back

/// The items of one written frame, by the library's receiver.
fn body_by_library(section: &mut Section, kind: u8, frame: &[u8]) -> Vec<u8> {
    let library = Library { null_for_empty: false };
    let (mut record, mut buffer) = ([0; RECORD], [0; STORE]);
    library.receiver_fresh(kind, &mut record);
    let fed = library.feed(&mut record, 0, frame, &mut buffer);
    section.expect("a written frame is taken whole", (0, frame.len()), (fed.refusal, fed.taken));
    buffer[..fed.frame_length].to_vec()
}

fn requests_round_trip(section: &mut Section) {
    let library = Library { null_for_empty: false };
    for _ in 0..section.times(100_000) {
        let random = &mut section.random;
        let (address, request) = (generate::address(random), generate::request(random));
        let value = generate::value_for(random, generate::request_field(request));
        let mut out = [0; 32];
        let written = library.write_request(address, request, value, &mut out);
        if written.refusal == 0 {
            let body = body_by_library(section, 0, &out[..written.length]);
            let carried = if generate::request_field(request) == Field::Nothing { 0 } else { value };
            let expected = interface::Request { refusal: 0, address, request, value: carried };
            section.expect("a written request is read back", expected, library.read_request(&body));
        }
    }
}

fn replies_round_trip(section: &mut Section) {
    let library = Library { null_for_empty: false };
    for _ in 0..section.times(100_000) {
        let random = &mut section.random;
        let (address, request, value) = asked(random);
        let reply = ROWS.get(usize::from(request)).map_or(0, |row| row.reply);
        let reply = if random.one_in(6) { DEVICE_ERROR } else { reply };
        let field = REPLIES[usize::from(reply)];
        let (reply_value, text) = (generate::value_for(random, field), generate::text(random));
        let bit7 = random.below(2) as u8;
        let mut out = [0; 600];
        let written = library.write_reply(address, request, value, reply, reply_value, &text, bit7, &mut out);
        if written.refusal == 0 {
            let body = body_by_library(section, 1, &out[..written.length]);
            let plain = interface::Reply { bit7, reply, value: reply_value, ..Default::default() };
            let expected = match field {
                Field::Nothing => interface::Reply { value: 0, ..plain },
                Field::Text => interface::Reply { value: 0, text_start: 4, text_length: text.len(), ..plain },
                Field::Validity => interface::Reply { value: if reply_value == 0 { 0 } else { 1 }, ..plain },
                Field::ErrorCode => {
                    interface::Reply { refusal: 15, code: reply_value as u8, bit7, ..Default::default() }
                }
                _ => plain,
            };
            section.expect(
                "a written reply is read back",
                expected,
                library.read_reply(address, request, value, &body),
            );
        }
    }
}

/// What is read, written and read again is the same reply; byte for byte but for a string and a validity byte over 1.
fn replies_read_again(section: &mut Section) {
    let library = Library { null_for_empty: false };
    for _ in 0..section.times(200_000) {
        let random = &mut section.random;
        let (address, request, value) = asked(random);
        let body = generate::near_reply_body(random, address, request);
        let read = library.read_reply(address, request, value, &body);
        let text = body.get(read.text_start..read.text_start + read.text_length).unwrap_or(&[]);
        let (reply, carried) =
            if read.refusal == 15 { (DEVICE_ERROR, u32::from(read.code)) } else { (read.reply, read.value) };
        if ![0, 15].contains(&read.refusal) || text.len() > 254 {
            continue;
        }
        let mut out = [0; 600];
        let written = library.write_reply(address, request, value, reply, carried, text, read.bit7, &mut out);
        let again = body_by_library(section, 1, &out[..written.length]);
        section.expect("a reply that was read is written", 0, written.refusal);
        section.expect("a reply is read again", read, library.read_reply(address, request, value, &again));
        match REPLIES[usize::from(reply)] {
            Field::Text => section.expect("its text", text, again.get(4..4 + text.len()).unwrap_or(&[])),
            Field::Validity => section.expect("its bytes where they are 00 or 01", body[4] < 2, again == body),
            _ => section.expect("its bytes", &body, &again),
        }
    }
}

// ---- Words on I2C

/// All 65,536 words in both families: good, every single bit wrong, the other family's CRC.
fn every_word_section(section: &mut Section) {
    for value in 0..=u16::MAX {
        for start in [0x00, 0xFF] {
            let good = word(start, value);
            let salt = u32::from(value);
            section.check(WriteWords { start, words: vec![value], room: 3, salt });
            section.check(ReadWords { start, bytes: Hex(good.to_vec()), room: 1, salt });
            section.check(ReadWords { start: !start, bytes: Hex(good.to_vec()), room: 1, salt });
            for bit in 0..24 {
                let mut bytes = good;
                bytes[bit / 8] ^= 1 << (bit % 8);
                section.check(ReadWords { start, bytes: Hex(bytes.to_vec()), room: 1, salt });
            }
        }
    }
}

fn read_words_section(section: &mut Section) {
    for _ in 0..section.times(300_000) {
        let random = &mut section.random;
        let start = random.pick(&[0x00, 0xFF, 0xFF, 0x81]) ^ if random.one_in(8) { random.byte() } else { 0 };
        let n = if random.one_in(20) { random.below(90) } else { random.below(8) };
        let mut bytes: Vec<u8> = (0..n).flat_map(|_| word(start, random.u16())).collect();
        match random.below(6) {
            0 | 1 => {}
            2 => bytes = generate::changed(random, &bytes),
            3 => bytes.truncate(bytes.len().saturating_sub(random.below(4))),
            4 => bytes.iter_mut().skip(3).step_by(3).for_each(|byte| *byte ^= 1),
            _ => bytes.iter_mut().skip(2).step_by(3).for_each(|byte| *byte ^= u8::from(random.one_in(3))),
        }
        let room = generate::room(random, n);
        let salt = salt(section);
        section.check(ReadWords { start, bytes: Hex(bytes), room, salt });
    }
}

fn write_words_section(section: &mut Section) {
    for _ in 0..section.times(200_000) {
        let random = &mut section.random;
        let start = if random.one_in(3) { random.byte() } else { random.pick(&[0x00, 0xFF]) };
        let n = if random.one_in(20) { random.below(90) } else { random.below(8) };
        let words: Vec<u16> = (0..n).map(|_| random.u16()).collect();
        let room = generate::room(random, 3 * n);
        let salt = salt(section);
        section.check(WriteWords { start, words, room, salt });
    }
}

fn sfc6_section(section: &mut Section) {
    for code in 0..=u16::MAX {
        let concentration = section.random.pick(&[0, 1, 1000, 1001, 65_536, u32::MAX]);
        section.check(WriteSfc6 { code, concentration, room: 5, salt: u32::from(code) });
    }
    let codes = [0xE102, 0xE000, 0x3FEF, 0x3F6E, 0xE17D, 0x3650, 0x365B];
    for code in codes {
        for concentration in (0..1100).chain([65_535, 65_536, 65_537, 66_536, 0xFFFF_FFFF]) {
            for room in 0..8 {
                section.check(WriteSfc6 { code, concentration, room, salt: concentration });
            }
        }
    }
    for _ in 0..section.times(100_000) {
        let code = section.random.pick(&codes);
        let concentration = section.random.u32() >> section.random.below(32);
        let (room, salt) = (section.random.below(9), salt(section));
        section.check(WriteSfc6 { code, concentration, room, salt });
    }
}

fn liquid_section(section: &mut Section) {
    for code in 0..=255 {
        for room in 0..6 {
            for value in [0, 0x0E10, 0x7E11, 0xFFFF] {
                section.check(WriteLiquid { code, value, room, salt: u32::from(value) });
            }
        }
    }
    for value in 0..=u16::MAX {
        for code in [0xE2, 0xE4, 0xE3] {
            section.check(WriteLiquid { code, value, room: 4, salt: u32::from(value) });
        }
    }
}

/// All register values with every field in range, and those around and far past the range.
fn registers_section(section: &mut Section) {
    for value in 0..=u16::MAX {
        for field in (0..9).chain([16, 255, 256, 65_536, 65_540, 0x8000_0000, u32::MAX]) {
            section.check(EditUser { value, field, salt: 0 });
            section.check(EditAdvanced { value, field, salt: 0 });
        }
    }
}

// ---- Scaled readings

fn scaled_both(section: &mut Section, raw: i16, offset: i16, scale: i32) {
    section.check(Scaled { raw, offset, scale, salt: 0 });
    section.check(ScaledFloat { raw, offset, scale, salt: 0 });
}

fn scaled_section(section: &mut Section) {
    const ENDS: [i16; 9] = [-32_768, -32_767, -28_672, -1, 0, 1, 22_528, 32_766, 32_767];
    const SCALES: [i32; 12] = [i32::MIN, -1, 0, 1, 2, 3, 1000, 2000, 32_766, 32_767, 32_768, i32::MAX];
    for raw in ENDS {
        for offset in ENDS {
            for scale in SCALES.iter().copied().chain([65_535, 65_536, 65_537, -32_768, 98_303]) {
                scaled_both(section, raw, offset, scale);
            }
        }
    }
    // Every raw value, and every scale, with an extreme or any other on the other side.
    for raw in i16::MIN..=i16::MAX {
        let (offset, scale) = (section.random.pick(&ENDS), section.random.pick(&SCALES));
        scaled_both(section, raw, offset, scale);
        let scale = section.random.between(1, 32_767) as i32;
        scaled_both(section, raw, offset, scale);
    }
    for scale in 1..=32_767 {
        let (raw, offset) = (section.random.pick(&ENDS), section.random.pick(&ENDS));
        scaled_both(section, raw, offset, scale);
    }
    // Halves: the difference times 2000 is an odd multiple of the scale.
    for scale in (16..=32_752).step_by(16) {
        for difference in (scale / 16..32_767).step_by(scale as usize / 8) {
            scaled_both(section, difference as i16, 0, scale);
            scaled_both(section, 0, difference as i16, scale);
        }
    }
    for _ in 0..section.times(400_000) {
        let (raw, offset) = (section.random.u16() as i16, section.random.u16() as i16);
        let scale = (section.random.u32() >> section.random.between(15, 31)) as i32;
        scaled_both(section, raw, offset, scale);
    }
}

/// The reference makes its floats from whole numbers; here they are held against this machine's own division.
fn float_reference_section(section: &mut Section) {
    for _ in 0..section.times(300_000) {
        let (raw, offset) = (section.random.u16() as i16, section.random.u16() as i16);
        let scale = section.random.between(1, 32_767) as i32;
        let divided = (i32::from(raw) - i32::from(offset)) as f32 / scale as f32;
        let made = scaled_float(raw, offset, scale).value;
        section.expect("the reference divides as the machine does", divided.to_bits(), made.to_bits());
    }
}

// ---- The run

fn setting(name: &str) -> Option<String> {
    std::env::var(name).ok().filter(|text| !text.is_empty())
}

fn number_or_exit(text: &str) -> u64 {
    text.parse().unwrap_or_else(|_| {
        eprintln!("differential: {text} is not a number; usage: differential [SEED]");
        std::process::exit(2);
    })
}

fn seed() -> u64 {
    let given = std::env::args().nth(1).or_else(|| setting("MFC_SEED"));
    given.map_or_else(
        || {
            let now = std::time::SystemTime::now().duration_since(std::time::UNIX_EPOCH);
            now.map_or(1, |since| since.as_nanos() as u64 % 1_000_000_007)
        },
        |text| number_or_exit(&text),
    )
}

fn main() {
    let percent = setting("MFC_PERCENT").map_or(100, |text| number_or_exit(&text) as usize);
    let only = setting("MFC_ONLY").unwrap_or_default();
    let mut report = Report { seed: seed(), percent, only, sections: 0, cases: 0, failures: 0 };
    println!("seed {}", report.seed);
    vectors::run(&mut report);
    board_vectors::run(&mut report);
    log_vectors::run(&mut report);
    replay_vectors::run(&mut report);
    report.section("checksum", checksum_section);
    report.section("crc", crc_section);
    engines::run(&mut report);
    report.section("write a request", write_request_section);
    report.section("write a request: every room", rooms_section);
    report.section("write a request at a place", write_request_at_section);
    report.section("polling rounds", polling_section);
    report.section("read a request", read_request_section);
    report.section("read a request: every command and length", every_command_section);
    report.section("write a reply", write_reply_section);
    report.section("write a reply: every number", every_reply_section);
    runs::run(&mut report);
    report.section("read a reply", read_reply_section);
    report.section("read a reply: every state and length", every_state_section);
    report.section("validity: every byte", every_validity_section);
    report.section("validity: values offered to the writer", validity_values_section);
    report.section("a fresh receiver", fresh_section);
    report.section("receiver: every short stream", short_streams_section);
    report.section("receiver: series of calls", series_section);
    report.section("receiver: every cut", cuts_section);
    report.section("receiver: long pieces", long_pieces_section);
    report.section("receiver: bodies of 256 to 263 bytes", largest_section);
    report.section("receiver: places of faults", places_section);
    report.section("receiver: places past 65,535", far_places_section);
    report.section("receiver: records", records_section);
    report.section("receiver: lengths of a record", lengths_section);
    report.section("receiver: ranges of a record", ranges_section);
    report.section("receiver: noise at every cut", noise_cuts_section);
    report.section("receiver: long runs of noise", noise_runs_section);
    report.section("receiver: the limit of the noise count", noise_limit_section);
    report.section("receiver: asked for its noise", noise_asked_section);
    report.section("silence: every cut of every short stream", silence_cuts_section);
    report.section("silence: at every two places", silence_places_section);
    report.section("silence: in streams of frames", silence_streams_section);
    report.section("silence: every short series of calls", silence_series_section);
    report.section("silence: with an empty piece", silence_alone_section);
    report.section("silence: every number for it", silence_numbers_section);
    report.section("silence: and bytes at once", silence_at_once_section);
    report.section("requests written and read back", requests_round_trip);
    report.section("replies written and read back", replies_round_trip);
    report.section("replies read, written and read again", replies_read_again);
    report.section("words: all of them", every_word_section);
    report.section("read words", read_words_section);
    report.section("write words", write_words_section);
    report.section("write an SFC6 command", sfc6_section);
    report.section("write a liquid command", liquid_section);
    report.section("registers: all of them", registers_section);
    report.section("scaled readings", scaled_section);
    report.section("scaled readings: the reference itself", float_reference_section);
    board_sections::run(&mut report);
    log_sections::run(&mut report);
    replay_sections::run(&mut report);
    let (sections, cases) = (report.sections, thousands(report.cases));
    println!("differential: {sections} sections, {cases} cases, {} failures", report.failures);
    if report.failures > 0 {
        std::process::exit(1);
    }
}
