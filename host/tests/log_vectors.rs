//! Document 02 (v), the shift log, sentence by sentence: known answers, each tried on the reference and on the library.
//! Bytes are in hex, 41*256 for a byte many times.

use crate::harness::{Hex, Report, Section};
use crate::interface::*;
use crate::log::ROW;
use crate::vectors::{both, hex};

/// "One record holding 7E 00 45 00 BA 7E is that, then 01 00 06, then 00 00 00 01 00 00 00 09."
const EXAMPLE: &str = "7E 00 45 00 BA 7E 01 00 06 00 00 00 01 00 00 00 09";
const EMPTY: &str = "00*8";
/// One record of 64,997 bytes, 65,000 with its trailer.
const LARGEST: &str = "41*64997 01 FD E5 00 00 00 01 00 00 FD E8";

const fn counted(answer: Result<usize, u8>) -> Words {
    match answer {
        Ok(count) => Words { refusal: 0, count },
        Err(refusal) => Words { refusal, count: 0 },
    }
}

const fn written(answer: Result<usize, u8>) -> Written {
    match answer {
        Ok(length) => Written { refusal: 0, length },
        Err(refusal) => Written { refusal, length: 0 },
    }
}

// ---- Files

/// What is said; a file; how many records it has, or why it is no log.
#[rustfmt::skip]
const FILES: &[(&str, &str, Result<usize, u8>)] = &[
    ("the example", EXAMPLE, Ok(1)),
    // "A record is its body, then a trailer of one kind byte and a two-byte big-endian body length, which points back
    // to the record's start."
    ("255 bytes", "41*255 02 00 FF 00 00 00 01 00 00 01 02", Ok(1)),
    ("256 bytes", "41*256 02 01 00 00 00 00 01 00 00 01 03", Ok(1)),
    ("258 bytes", "41*258 02 01 02 00 00 00 01 00 00 01 05", Ok(1)),
    ("258 bytes, their length the other way round", "41*258 02 02 01 00 00 00 01 00 00 01 05", Err(21)),
    ("the length before the kind", "41 00 01 01 00 00 00 01 00 00 00 04", Err(21)),
    ("the trailer before the body", "01 00 01 41 00 00 00 01 00 00 00 04", Err(21)),
    ("a body that could be three records", "01 00 00 02 00 00 03 00 00 02 00 09 00 00 00 01 00 00 00 0C", Ok(1)),
    // "Kind 1 is request-side bytes, 2 reply-side bytes, 3 a silence mark (empty body)."
    ("each kind", "41 01 00 01 42 02 00 01 03 00 00 00 00 00 03 00 00 00 0B", Ok(3)),
    ("a silence mark", "03 00 00 00 00 00 01 00 00 00 03", Ok(1)),
    // Kinds 1 and 2 may have an empty body: 22 names no more than kind 3 with a body.
    ("request-side, and empty", "01 00 00 00 00 00 01 00 00 00 03", Ok(1)),
    ("reply-side, and empty", "02 00 00 00 00 00 01 00 00 00 03", Ok(1)),
    // "The file closes with eight bytes: record count and total record bytes, both u32 big-endian": without a record
    // both are 0.
    ("the empty log", EMPTY, Ok(0)),
    ("the total before the count", "41*2 01 00 02 00 00 00 05 00 00 00 01", Err(20)),
    ("the total the other way round", "03 00 00 00 00 00 01 03 00 00 00", Err(20)),
    ("the count the other way round", "03 00 00 01 00 00 00 00 00 00 03", Err(23)),
    // "at most 65,000 total bytes"
    ("65,000 bytes", LARGEST, Ok(1)),
    ("65,000 bytes and a mark among them", "41*64994 02 FD E2 03 00 00 00 00 00 02 00 00 FD E8", Ok(2)),
    // "20 for a file under 8 bytes"
    ("no byte", "", Err(20)),
    ("seven bytes", "00*7", Err(20)),
    ("the example's last seven bytes", "00 00 01 00 00 00 09", Err(20)),
    // "a total that differs from what precedes it": from the bytes before the closing eight
    ("one less", "7E 00 45 00 BA 7E 01 00 06 00 00 00 01 00 00 00 08", Err(20)),
    ("one more", "7E 00 45 00 BA 7E 01 00 06 00 00 00 01 00 00 00 0A", Err(20)),
    ("the bytes before the total, 13", "7E 00 45 00 BA 7E 01 00 06 00 00 00 01 00 00 00 0D", Err(20)),
    ("the bytes of the file, 17", "7E 00 45 00 BA 7E 01 00 06 00 00 00 01 00 00 00 11", Err(20)),
    ("the bytes of the body, 6", "7E 00 45 00 BA 7E 01 00 06 00 00 00 01 00 00 00 06", Err(20)),
    ("256 more", "7E 00 45 00 BA 7E 01 00 06 00 00 00 01 00 00 01 09", Err(20)),
    ("65,536 more", "7E 00 45 00 BA 7E 01 00 06 00 00 00 01 00 01 00 09", Err(20)),
    ("16,777,216 more", "7E 00 45 00 BA 7E 01 00 06 00 00 00 01 01 00 00 09", Err(20)),
    ("a byte behind the file", "7E 00 45 00 BA 7E 01 00 06 00 00 00 01 00 00 00 09 00", Err(20)),
    ("a byte before the file", "00 7E 00 45 00 BA 7E 01 00 06 00 00 00 01 00 00 00 09", Err(20)),
    ("no record and a total of 1", "00 00 00 00 00 00 00 01", Err(20)),
    // "or one over 65,000"
    ("65,001 bytes", "41*64998 01 FD E6 00 00 00 01 00 00 FD E9", Err(20)),
    ("65,538 bytes", "41*65535 01 FF FF 00 00 00 01 00 01 00 02", Err(20)),
    ("65,538 bytes, told as 2", "41*65535 01 FF FF 00 00 00 01 00 00 00 02", Err(20)),
    // "21 for a trailer cut short": one byte is left, or two
    ("one byte", "01 00 00 00 00 00 00 00 01", Err(21)),
    ("two bytes", "01 00 00 00 00 00 00 00 00 02", Err(21)),
    ("one byte before a record", "01 02 00 00 00 00 00 01 00 00 00 04", Err(21)),
    ("two bytes before a record", "01 00 02 00 00 00 00 00 01 00 00 00 05", Err(21)),
    ("one byte before the example", "7E 7E 00 45 00 BA 7E 01 00 06 00 00 00 01 00 00 00 0A", Err(21)),
    // "or pointing before the start"
    ("to the start", "41 01 00 01 00 00 00 01 00 00 00 04", Ok(1)),
    ("one before the start", "41 01 00 02 00 00 00 01 00 00 00 04", Err(21)),
    ("into its own trailer", "41 01 00 04 00 00 00 01 00 00 00 04", Err(21)),
    ("far before the start", "41 01 FF FF 00 00 00 01 00 00 00 04", Err(21)),
    ("the older one of two", "41 01 00 02 42 01 00 01 00 00 00 02 00 00 00 08", Err(21)),
    // "else 22 for an unknown kind or a kind 3 with a body"
    ("kind 0", "00 00 00 00 00 00 01 00 00 00 03", Err(22)),
    ("kind 4", "04 00 00 00 00 00 01 00 00 00 03", Err(22)),
    ("kind 255", "FF 00 00 00 00 00 01 00 00 00 03", Err(22)),
    ("kind 4 with a body", "41 04 00 01 00 00 00 01 00 00 00 04", Err(22)),
    ("kind 3 with a body", "41 03 00 01 00 00 00 01 00 00 00 04", Err(22)),
    ("kind 3 with a body of 256 bytes", "41*256 03 01 00 00 00 00 01 00 00 01 03", Err(22)),
    ("kind 0, the older one of two", "00 00 00 42 01 00 01 00 00 00 02 00 00 00 07", Err(22)),
    // "else": within one record 21 comes first
    ("kind 0, one before the start", "41 00 00 02 00 00 00 01 00 00 00 04", Err(21)),
    ("kind 3, one before the start", "41 03 00 02 00 00 00 01 00 00 00 04", Err(21)),
    // "at the newest faulty record": what is wrong further back is not told
    ("an unknown kind, then one before the start", "01 00 01 04 00 00 00 00 00 02 00 00 00 06", Err(22)),
    ("an unknown kind, then a trailer cut short", "01 00 04 00 00 00 00 00 02 00 00 00 05", Err(22)),
    ("a mark with a body, then a trailer cut short", "01 41 03 00 01 00 00 00 02 00 00 00 05", Err(22)),
    ("before the start, then an unknown kind", "04 00 00 01 00 04 00 00 00 02 00 00 00 06", Err(21)),
    ("a good one, an unknown kind, then a trailer cut short",
     "01 04 00 00 41 02 00 01 00 00 00 03 00 00 00 08", Err(22)),
    // "then 23 wrong count"
    ("no record, and one counted", "00 00 00 01 00 00 00 00", Err(23)),
    ("one record, and none counted", "7E 00 45 00 BA 7E 01 00 06 00 00 00 00 00 00 00 09", Err(23)),
    ("one record, and two counted", "7E 00 45 00 BA 7E 01 00 06 00 00 00 02 00 00 00 09", Err(23)),
    ("one record, and 257 counted", "7E 00 45 00 BA 7E 01 00 06 00 00 01 01 00 00 00 09", Err(23)),
    ("one record, and 65,537 counted", "7E 00 45 00 BA 7E 01 00 06 00 01 00 01 00 00 00 09", Err(23)),
    ("one record, and 16,777,217 counted", "7E 00 45 00 BA 7E 01 00 06 01 00 00 01 00 00 00 09", Err(23)),
    // the order of the four
    ("20 before 21", "41 01 00 02 00 00 00 01 00 00 00 05", Err(20)),
    ("20 before 22", "04 00 00 00 00 00 01 00 00 00 04", Err(20)),
    ("20 before 23", "00 00 00 01 00 00 00 01", Err(20)),
    ("21 before 23", "41 01 00 02 00 00 00 07 00 00 00 04", Err(21)),
    ("22 before 23", "04 00 00 00 00 00 07 00 00 00 03", Err(22)),
    ("over 65,000 before 21", "41*64998 01 FD E7 00 00 00 01 00 00 FD E9", Err(20)),
    ("over 65,000 before 22", "41*64998 04 FD E6 00 00 00 01 00 00 FD E9", Err(20)),
];

/// "A log that passes the check is listed newest first, each record once; of any other nothing is shown."
fn files(section: &mut Section) {
    for (what, file, answer) in FILES {
        let file = hex(file);
        for (name, on) in both() {
            section.expect(&format!("{name}, {what}"), counted(*answer), on.log_check(&file));
            let mut rows = vec![0x5AC3; 3 * ROW];
            section.expect(&format!("{name}, {what}: listed"), counted(*answer), on.log_list(&file, 0, &mut rows));
            let shown = ROW * answer.unwrap_or(0);
            section.expect(&format!("{name}, {what}: not shown"), &[0x5AC3; 3 * ROW][shown..], &rows[shown..]);
            if let Err(refusal) = answer {
                let before = [&file[..], &[0x5A; 9]].concat();
                let mut buffer = before.clone();
                let refused = on.log_append(&mut buffer, file.len(), 1, &[0x41]);
                section.expect(&format!("{name}, {what}: added to"), written(Err(*refusal)), refused);
                section.expect(&format!("{name}, {what}: no byte is changed"), Hex(before), Hex(buffer));
            }
        }
    }
}

// ---- Lists

/// What is said; a log; its rows: kind, where the body starts, its length.
#[rustfmt::skip]
const LISTS: &[(&str, &str, &[[u16; ROW]])] = &[
    // "listed newest first, each record once"
    ("the example", EXAMPLE, &[[1, 0, 6]]),
    ("the empty log", EMPTY, &[]),
    ("four records", FOUR, &FOUR_ROWS),
    ("the same record three times", "41 01 00 01 41 01 00 01 41 01 00 01 00 00 00 03 00 00 00 0C",
     &[[1, 8, 1], [1, 4, 1], [1, 0, 1]]),
    ("a body that could be three records", "01 00 00 02 00 00 03 00 00 02 00 09 00 00 00 01 00 00 00 0C", &[[2, 0, 9]]),
    ("256 bytes between two marks", "03 00 00 41*256 02 01 00 03 00 00 00 00 00 03 00 00 01 09",
     &[[3, 262, 0], [2, 3, 256], [3, 0, 0]]),
    // "at most 65,000 total bytes"
    ("65,000 bytes", LARGEST, &[[1, 0, 64_997]]),
    ("a mark at the end of 65,000 bytes", "41*64994 02 FD E2 03 00 00 00 00 00 02 00 00 FD E8",
     &[[3, 64_997, 0], [2, 0, 64_994]]),
];

const FOUR: &str = "41 01 00 01 42 43 02 00 02 03 00 00 44 02 00 01 00 00 00 04 00 00 00 10";
const FOUR_ROWS: [[u16; ROW]; 4] = [[2, 12, 1], [3, 9, 0], [2, 4, 2], [1, 0, 1]];

fn lists(section: &mut Section) {
    for (what, file, expected) in LISTS {
        let file = hex(file);
        for (name, on) in both() {
            let mut rows = vec![0; ROW * expected.len() + ROW];
            let listed = on.log_list(&file, 0, &mut rows);
            section.expect(&format!("{name}, {what}"), counted(Ok(expected.len())), listed);
            section.expect(&format!("{name}, {what}: rows"), &expected.concat()[..], &rows[..ROW * expected.len()]);
        }
    }
}

/// As many rows as fit, from the record that so many others are newer than; 1 where there is one to lay and no room for
/// one. What is past the answer is not changed, and by a refusal nothing.
fn windows(section: &mut Section) {
    let file = hex(FOUR);
    for (name, on) in both() {
        for skip in [0, 1, 2, 3, 4, 5, 6, 65_536, usize::MAX] {
            for room in 0..=16 {
                let wanted = FOUR_ROWS.get(skip..).unwrap_or(&[]);
                let fit = match room {
                    0..=2 => 0,
                    3..=5 => 1,
                    6..=8 => 2,
                    9..=11 => 3,
                    _ => 4,
                };
                let shown = &wanted[..wanted.len().min(fit)].concat();
                let answer = if wanted.is_empty() || fit > 0 { Ok(shown.len() / ROW) } else { Err(1) };
                let what = format!("{name}, {skip} skipped in room for {room}");
                let mut rows = vec![0x5AC3; room];
                section.expect(&what, counted(answer), on.log_list(&file, skip, &mut rows));
                let expected = [&shown[..], &vec![0x5AC3; room - shown.len()]].concat();
                section.expect(&what, expected, rows);
            }
        }
    }
}

// ---- The writer

/// What is said; a log, the buffer's size and the length given; kind and body; the log after it, or the refusal.
type Adding = (&'static str, &'static str, usize, usize, u8, &'static str, Result<&'static str, u8>);

#[rustfmt::skip]
const ADDED: &[Adding] = &[
    // "One record holding 7E 00 45 00 BA 7E is that, then 01 00 06, then 00 00 00 01 00 00 00 09."
    ("the example", EMPTY, 17, 8, 1, "7E 00 45 00 BA 7E", Ok(EXAMPLE)),
    // "The writer adds one record to a log at the start of a lent buffer, its length given"
    ("a second record", EXAMPLE, 60, 17, 2, "42 43",
     Ok("7E 00 45 00 BA 7E 01 00 06 42 43 02 00 02 00 00 00 02 00 00 00 0E")),
    ("a silence mark", EXAMPLE, 60, 17, 3, "", Ok("7E 00 45 00 BA 7E 01 00 06 03 00 00 00 00 00 02 00 00 00 0C")),
    ("request-side, and empty", EMPTY, 60, 8, 1, "", Ok("01 00 00 00 00 00 01 00 00 00 03")),
    ("reply-side, and empty", EMPTY, 60, 8, 2, "", Ok("02 00 00 00 00 00 01 00 00 00 03")),
    ("a body of eight 00", EMPTY, 60, 8, 2, "00*8", Ok("00*8 02 00 08 00 00 00 01 00 00 00 0B")),
    ("255 bytes", EMPTY, 300, 8, 2, "41*255", Ok("41*255 02 00 FF 00 00 00 01 00 00 01 02")),
    ("258 bytes", EMPTY, 300, 8, 2, "41*258", Ok("41*258 02 01 02 00 00 00 01 00 00 01 05")),
    ("the empty log at the start of another", "00*8 02 00 08 00 00 00 01 00 00 00 0B", 60, 8, 1, "41",
     Ok("41 01 00 01 00 00 00 01 00 00 00 04")),
    // "(1 first if past the buffer)"
    ("one past the buffer", EXAMPLE, 17, 18, 1, "41", Err(1)),
    ("far past the buffer", EXAMPLE, 17, usize::MAX, 1, "41", Err(1)),
    ("past a buffer of nothing", "", 0, 1, 1, "41", Err(1)),
    ("past the buffer before 20", "00*7", 7, 8, 1, "41", Err(1)),
    ("past the buffer before 22", EXAMPLE, 17, 18, 4, "", Err(1)),
    ("past the buffer before 12", LARGEST, 65_008, 65_009, 1, "41", Err(1)),
    // "the check's refusals": of a log of no byte it is 20
    ("a length of 0", EMPTY, 60, 0, 1, "41", Err(20)),
    ("a buffer of nothing", "", 0, 0, 1, "41", Err(20)),
    ("a length of 7", EMPTY, 60, 7, 1, "41", Err(20)),
    ("a length one under the log's", EXAMPLE, 60, 16, 1, "41", Err(20)),
    ("a length one over the log's", EXAMPLE, 60, 18, 1, "41", Err(20)),
    ("20 before 22", "00*7 01", 60, 8, 4, "41", Err(20)),
    ("21 before 22", "41 01 00 02 00 00 00 01 00 00 00 04", 60, 12, 4, "41", Err(21)),
    ("23 before 22", "00 00 00 01 00 00 00 00", 60, 8, 4, "41", Err(23)),
    ("20 before 12", "00*7 01", 60, 8, 1, "41*65000", Err(20)),
    ("23 before 1", "00 00 00 01 00 00 00 00", 8, 8, 1, "41", Err(23)),
    // "then 22"
    ("kind 0", EXAMPLE, 60, 17, 0, "41", Err(22)),
    ("kind 0, and empty", EXAMPLE, 60, 17, 0, "", Err(22)),
    ("kind 4", EXAMPLE, 60, 17, 4, "41", Err(22)),
    ("kind 255", EXAMPLE, 60, 17, 255, "41", Err(22)),
    ("a silence mark with a body", EXAMPLE, 60, 17, 3, "41", Err(22)),
    ("22 before 12", EXAMPLE, 60, 17, 3, "41*65000", Err(22)),
    ("22 before 12, a full log", LARGEST, 65_020, 65_008, 4, "", Err(22)),
    ("22 before 1", EXAMPLE, 17, 17, 4, "41", Err(22)),
    // "then 12 where the total would pass 65,000"
    ("65,000 bytes", EMPTY, 65_008, 8, 1, "41*64997", Ok(LARGEST)),
    ("65,001 bytes", EMPTY, 65_100, 8, 1, "41*64998", Err(12)),
    ("65,000 bytes with a mark", "41*64994 02 FD E2 00 00 00 01 00 00 FD E5", 65_100, 65_005, 3, "",
     Ok("41*64994 02 FD E2 03 00 00 00 00 00 02 00 00 FD E8")),
    ("65,001 bytes with a mark", "41*64995 02 FD E3 00 00 00 01 00 00 FD E6", 65_100, 65_006, 3, "", Err(12)),
    ("a full log", LARGEST, 65_100, 65_008, 3, "", Err(12)),
    // no length of two bytes is passed unseen
    ("65,533 bytes, 65,536 with their trailer", EMPTY, 66_000, 8, 1, "41*65533", Err(12)),
    ("65,535 bytes", EMPTY, 66_000, 8, 1, "41*65535", Err(12)),
    ("65,536 bytes", EMPTY, 66_000, 8, 1, "41*65536", Err(12)),
    ("65,537 bytes", EMPTY, 66_000, 8, 1, "41*65537", Err(12)),
    ("12 before 1", EMPTY, 8, 8, 1, "41*64998", Err(12)),
    ("12 before 1, a full log", LARGEST, 65_008, 65_008, 3, "", Err(12)),
    // "then 1"
    ("room for one byte less", EMPTY, 16, 8, 1, "7E 00 45 00 BA 7E", Err(1)),
    ("room for the log alone", EXAMPLE, 17, 17, 3, "", Err(1)),
    ("room for one byte less than a mark", EXAMPLE, 19, 17, 3, "", Err(1)),
    ("room for a mark", EXAMPLE, 20, 17, 3, "", Ok("7E 00 45 00 BA 7E 01 00 06 03 00 00 00 00 00 02 00 00 00 0C")),
    ("65,000 bytes in room for one less", EMPTY, 65_007, 8, 1, "41*64997", Err(1)),
];

/// A refusal changes no byte of the buffer; else what is behind the new log is not changed.
fn added(section: &mut Section) {
    for (what, file, size, length, kind, body, answer) in ADDED {
        let mut before = hex(file);
        before.resize(*size, 0x5A);
        for (name, on) in both() {
            let after = answer.map_or(Vec::new(), hex);
            let mut buffer = before.clone();
            let found = on.log_append(&mut buffer, *length, *kind, &hex(body));
            section.expect(&format!("{name}, {what}"), written(answer.map(|_| after.len())), found);
            let expected = [&after[..], &before[after.len()..]].concat();
            section.expect(&format!("{name}, {what}: the buffer"), Hex(expected), Hex(buffer));
        }
    }
}

/// Nothing makes the first log but the function for it: eight 00, and 1 where there is no room for them.
fn empty(section: &mut Section) {
    for (name, on) in both() {
        for room in 0..=20 {
            let mut file = vec![0x5A; room];
            let answer = if room < 8 { Err(1) } else { Ok(8) };
            section.expect(&format!("{name}: room for {room}"), written(answer), on.log_empty(&mut file));
            let laid = answer.unwrap_or(0);
            let expected = [vec![0; laid], vec![0x5A; room - laid]].concat();
            section.expect(&format!("{name}: {room} bytes"), Hex(expected), Hex(file));
        }
    }
}

// ---- Many records

/// So many silence marks, and these eight bytes.
fn marks(n: usize, closing: &str) -> Vec<u8> {
    [[3, 0, 0].repeat(n), hex(closing)].concat()
}

/// "The file closes with eight bytes: record count and total record bytes": each where it goes past one byte, and
/// the last step that there is.
fn count_and_total(section: &mut Section) {
    const STEPS: [(usize, &str, &str); 3] = [
        (85, "00 00 00 55 00 00 00 FF", "00 00 00 56 00 00 01 02"),
        (255, "00 00 00 FF 00 00 02 FD", "00 00 01 00 00 00 03 00"),
        (21_665, "00 00 54 A1 00 00 FD E3", "00 00 54 A2 00 00 FD E6"),
    ];
    for (n, closing, longer) in STEPS {
        for (name, on) in both() {
            let mut buffer = marks(n, closing);
            let length = buffer.len();
            section.expect(&format!("{name}: {n} marks"), counted(Ok(n)), on.log_check(&buffer));
            buffer.resize(length + 3, 0x5A);
            let found = on.log_append(&mut buffer, length, 3, &[]);
            section.expect(&format!("{name}: one more than {n}"), written(Ok(length + 3)), found);
            section.expect(&format!("{name}: {n} and one more"), Hex(marks(n + 1, longer)), Hex(buffer));
        }
    }
}

/// "at most 65,000 total bytes": of the shortest records, three bytes each, 21,666.
fn most_records(section: &mut Section) {
    let most = marks(21_666, "00 00 54 A2 00 00 FD E6");
    let one_more = marks(21_667, "00 00 54 A3 00 00 FD E9");
    for (name, on) in both() {
        section.expect(&format!("{name}: 21,666 marks"), counted(Ok(21_666)), on.log_check(&most));
        section.expect(&format!("{name}: 21,667 marks"), counted(Err(20)), on.log_check(&one_more));
        let mut buffer = [&most[..], &[0x5A; 20]].concat();
        let found = on.log_append(&mut buffer, most.len(), 3, &[]);
        section.expect(&format!("{name}: one mark more"), written(Err(12)), found);
        let mut rows = vec![0; ROW * 21_666];
        section.expect(&format!("{name}: listed"), counted(Ok(21_666)), on.log_list(&most, 0, &mut rows));
        let expected = (0..21_666).rev().map(|at| [3, 3 * at, 0]);
        let other = expected.zip(rows.chunks(ROW)).find(|(expected, row)| expected != row);
        section.expect(&format!("{name}: a row that is not as expected"), None, other);
        let mut row = [0; ROW];
        section.expect(&format!("{name}: the oldest"), counted(Ok(1)), on.log_list(&most, 21_665, &mut row));
        section.expect(&format!("{name}: its row"), [3, 0, 0], row);
        section.expect(&format!("{name}: past it"), counted(Ok(0)), on.log_list(&most, 21_666, &mut row));
    }
}

pub fn run(report: &mut Report) {
    report.section("vectors: log, files", files);
    report.section("vectors: log, lists", lists);
    report.section("vectors: log, windows of a list", windows);
    report.section("vectors: log, records added", added);
    report.section("vectors: log, the empty log", empty);
    report.section("vectors: log, count and total", count_and_total);
    report.section("vectors: log, the most records", most_records);
}
