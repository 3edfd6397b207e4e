//! The shift log against the reference: good files, damaged ones and any bytes, records added up to the last byte, and
//! lists in every room.

use crate::generate::{room, some_bytes};
use crate::harness::*;
use crate::log::*;
use crate::log_cases::*;
use crate::log_generate as generate;
use crate::salt;

fn check(section: &mut Section, file: &[u8], salt: u32) {
    section.check(LogCheck { file: File(file.to_vec()), salt });
}

fn list(section: &mut Section, file: &[u8], skip: usize, room: usize, salt: u32) {
    section.check(LogList { file: File(file.to_vec()), skip, room, salt });
}

/// A record for the log, with so many bytes behind the log.
fn append(section: &mut Section, file: &[u8], behind: usize, kind: u8, body: &[u8], salt: u32) {
    let (behind, body) = (Hex(some_bytes(&mut section.random, behind)), Hex(body.to_vec()));
    section.check(LogAppend { file: File(file.to_vec()), behind, past: 0, kind, body, salt });
}

/// What every function that reads a log says of a file.
fn each_reader(section: &mut Section, file: &[u8], salt: u32) {
    check(section, file, salt);
    list(section, file, 0, 12, salt);
    append(section, file, 5, REQUEST_SIDE, &[0x41, 0x42], salt);
}

/// A few records, some of whose bodies could be records themselves.
fn few_records() -> Vec<u8> {
    let all: [Record<&[u8]>; 6] = [
        (SILENCE, &[]),
        (REQUEST_SIDE, &[0x7E, 0x00, 0x45, 0x00, 0xBA, 0x7E]),
        (REPLY_SIDE, &[0x03, 0x00, 0x00]),
        (REPLY_SIDE, &[]),
        (SILENCE, &[]),
        (REQUEST_SIDE, &[0x00, 0x01, 0x00, 0x01]),
    ];
    file_of(&all)
}

// ---- Random files

fn random_files_section(section: &mut Section) {
    for _ in 0..section.times(200_000) {
        let file = generate::file(&mut section.random);
        let salt = salt(section);
        check(section, &file, salt);
        for _ in 0..2 {
            let (skip, room) = (section.random.below(12), section.random.below(40));
            list(section, &file, skip, room, salt);
        }
    }
}

fn damaged_files_section(section: &mut Section) {
    for _ in 0..section.times(300_000) {
        let file = generate::damaged_file(&mut section.random, 8);
        let salt = salt(section);
        check(section, &file, salt);
        list(section, &file, 0, 30, salt);
    }
}

// ---- Whole ranges of small files

/// All bytes before the closing eight that five numbers can make, up to eight of them, with each count.
fn every_short_file_section(section: &mut Section) {
    for length in 0..9 {
        for number in 0..5_usize.pow(length) {
            let bytes: Vec<u8> = (0..length).map(|at| (number / 5_usize.pow(at) % 5) as u8).collect();
            for count in 0..4 {
                check(section, &closed(&bytes, count), count);
            }
            let count = records(&bytes).map_or(1, |all| all.len());
            list(section, &closed(&bytes, count as u32), 0, ROW * 3, number as u32);
        }
    }
}

/// Every other value of every byte of small logs; of longer ones some values.
fn every_byte_section(section: &mut Section) {
    let mut files = vec![few_records()];
    files.extend((0..30).map(|_| generate::good_file(&mut section.random, 6)));
    for file in files {
        for at in 0..file.len() {
            let few = [0, 1, 2, 3, 4, file[at].wrapping_add(1), file[at].wrapping_sub(1), 255];
            let values: Vec<u8> = if file.len() < 80 { (0..=255).collect() } else { few.to_vec() };
            for value in values {
                let mut changed = file.clone();
                changed[at] = value;
                each_reader(section, &changed, u32::from(value));
            }
        }
    }
}

/// Every two bytes of a small log, with some values for each.
fn two_bytes_section(section: &mut Section) {
    const VALUES: [u8; 6] = [0, 1, 3, 4, 9, 255];
    let file = few_records();
    for first in 0..file.len() {
        for second in first + 1..file.len() {
            for (a, b) in VALUES.iter().flat_map(|a| VALUES.map(|b| (*a, b))) {
                let mut changed = file.clone();
                (changed[first], changed[second]) = (a, b);
                check(section, &changed, u32::from(a));
            }
        }
    }
}

/// A file as it is, and with its closing bytes put right.
fn as_it_is_and_right(section: &mut Section, file: Vec<u8>, salt: u32) {
    for right in put_right(&file).into_iter().chain([file]) {
        each_reader(section, &right, salt);
    }
}

/// Logs cut before and behind every place, with a byte less there, and with one more.
fn every_place_section(section: &mut Section) {
    let mut files = vec![few_records()];
    files.extend((0..section.times(150)).map(|_| generate::good_file(&mut section.random, 6)));
    for file in files {
        for at in 0..=file.len() {
            let (before, after) = file.split_at(at);
            as_it_is_and_right(section, before.to_vec(), at as u32);
            as_it_is_and_right(section, after.to_vec(), at as u32);
            as_it_is_and_right(section, [before, after.get(1..).unwrap_or(&[])].concat(), at as u32);
            let more = section.random.pick(&[0, 1, 2, 3, 4, 255]);
            as_it_is_and_right(section, [before, &[more], after].concat(), at as u32);
        }
    }
}

/// A number and those that it could be taken for: some off, a bit wrong, its bytes turned round.
fn near(number: u32) -> Vec<u32> {
    let off = [1, 2, 3, 4, 8, 256, 65_536, 0x0100_0000];
    let mut all = vec![number, number.swap_bytes(), number.rotate_left(16), !number, 65_000, 65_001];
    all.extend(off.iter().flat_map(|off| [number.wrapping_add(*off), number.wrapping_sub(*off)]));
    all.extend((0..32).map(|bit| number ^ 1 << bit));
    all
}

/// Every count near to the right one with every total near to the right one.
fn counts_and_totals_section(section: &mut Section) {
    let mut files = vec![file_of::<&[u8]>(&[]), few_records()];
    files.extend((0..10).map(|_| generate::good_file(&mut section.random, 6)));
    files.push(file_of(&vec![(SILENCE, Vec::<u8>::new()); 300]));
    for file in files {
        let (before, _) = file.split_at(file.len() - CLOSING);
        let right = records(before).map_or(0, |all| all.len() as u32);
        for count in near(right) {
            for total in near(before.len() as u32) {
                let wrong = [before, &count.to_be_bytes(), &total.to_be_bytes()].concat();
                check(section, &wrong, count);
            }
        }
    }
}

// ---- Which fault is told

/// What is wrong with a record that so many bytes stand before: its kind, its length, or both.
fn faults(before_trailer: usize) -> Vec<(u8, usize)> {
    let mut all = Vec::new();
    for kind in [0, REQUEST_SIDE, REPLY_SIDE, SILENCE, 4, 255] {
        for length in [0, 1, 2, before_trailer, before_trailer + 1, before_trailer + 256, 0xFFFF] {
            all.push((kind, length));
        }
    }
    all
}

/// Every two records of a log with every two trailers, the count right and wrong; and one or two bytes before them all.
fn two_faults_section(section: &mut Section) {
    let bodies: [&[u8]; 5] = [&[0x41], &[], &[0x42, 0x43], &[0x44, 0x45, 0x46], &[]];
    for older in 0..bodies.len() {
        for newer in older..bodies.len() {
            for left_over in 0..3 {
                let mut bytes = vec![1; left_over];
                let mut trailers = Vec::new();
                for body in bodies {
                    bytes.extend_from_slice(body);
                    trailers.push(bytes.len());
                    bytes.extend_from_slice(&[REPLY_SIDE, 0, body.len() as u8]);
                }
                for first in faults(trailers[older]) {
                    for second in faults(trailers[newer]) {
                        let mut bytes = bytes.clone();
                        for (at, (kind, length)) in [(trailers[older], first), (trailers[newer], second)] {
                            bytes[at..at + TRAILER].copy_from_slice(&[kind, (length >> 8) as u8, length as u8]);
                        }
                        let count = section.random.below(7) as u32;
                        check(section, &closed(&bytes, count), count);
                    }
                }
            }
        }
    }
}

// ---- The largest files

/// Totals around 65,000, far over it, and around those of which two bytes tell little; in few records and in many.
fn largest_section(section: &mut Section) {
    let around = |middle: usize| middle - 3..=middle + 3;
    let totals = around(65_000).chain(around(65_008)).chain(around(65_535)).chain(around(2 * 65_536));
    for total in totals.chain([5 * 65_536 + 100, 300_000]) {
        for widest in [0, 300, 65_000] {
            let file = generate::file_of_total(&mut section.random, total, widest);
            check(section, &file, total as u32);
            list(section, &file, 1, 9, total as u32);
            // A total that two bytes would hold, and the most that there may be.
            for told in [total as u32 & 0xFFFF, 65_000] {
                let mut told_otherwise = file.clone();
                let at = file.len() - 4;
                told_otherwise[at..].copy_from_slice(&told.to_be_bytes());
                check(section, &told_otherwise, told);
            }
        }
    }
    // The longest body that a trailer can tell, in a file that is too long for it to matter.
    for kind in [REQUEST_SIDE, SILENCE, 4] {
        check(section, &closed(&record_bytes(kind, &vec![1; 65_535]), 1), 0);
    }
}

/// As many records as a log can have, one fewer and one more; every window near its ends.
fn most_records_section(section: &mut Section) {
    const MOST_RECORDS: usize = MOST / TRAILER;
    for n in [MOST_RECORDS - 1, MOST_RECORDS, MOST_RECORDS + 1] {
        let kinds = [SILENCE, REQUEST_SIDE, REPLY_SIDE];
        let all: Vec<Record<Vec<u8>>> = (0..n).map(|at| (kinds[at % 3], Vec::new())).collect();
        let file = file_of(&all);
        for count in [n - 1, n, n + 1, n + 65_536] {
            check(section, &closed(&file[..file.len() - CLOSING], count as u32), count as u32);
        }
        for skip in [0, 1, n / 2, n - 2, n - 1, n, n + 1, n + 65_536, usize::MAX] {
            for room in [0, 2, 3, 8, ROW * n - 1, ROW * n, ROW * n + 5, 65_536, 65_538] {
                list(section, &file, skip, room, skip as u32 >> 1);
            }
        }
        for length in 0..7 {
            for behind in [0, TRAILER + length - 1, TRAILER + length, 600] {
                append(section, &file, behind, REPLY_SIDE, &vec![0x42; length], behind as u32);
            }
        }
        // The oldest record is as faulty as any.
        for trailer in [[0, 0, 0], [1, 0, 1], [3, 0, 1], [4, 0, 0]] {
            let mut faulty = file.clone();
            faulty[..TRAILER].copy_from_slice(&trailer);
            check(section, &faulty, 0);
        }
    }
}

/// Large logs with a few damages anywhere, most of them far from the end.
fn large_damaged_section(section: &mut Section) {
    for _ in 0..section.times(150) {
        let random = &mut section.random;
        let (total, widest) = (random.between(20_000, MOST), random.pick(&[0, 20, 300, 9_000]));
        let file = generate::file_of_total(random, total, widest);
        list(section, &file, 0, ROW * MOST, total as u32);
        for _ in 0..8 {
            let at = section.random.below(file.len());
            let mut changed = file.clone();
            changed[at] = section.random.pick(&[0, 1, 2, 3, 4, 255]);
            check(section, &changed, at as u32);
            let skip = section.random.below(50);
            list(section, &changed, skip, 60, at as u32);
        }
    }
}

// ---- The writer

fn empty_section(section: &mut Section) {
    for room in 0..100 {
        for salt in 0..20 {
            section.check(LogEmpty { room, salt });
        }
    }
}

/// Six records for each file, since a file takes longer to make than a call.
fn append_section(section: &mut Section) {
    for _ in 0..section.times(80_000) {
        let file = generate::file(&mut section.random);
        for _ in 0..6 {
            let random = &mut section.random;
            let Offer { kind, body } = generate::offer(random);
            let behind = room(random, TRAILER + body.0.len());
            let salt = salt(section);
            append(section, &file, behind, kind, &body.0, salt);
        }
    }
}

/// Every kind with every room near to what is needed, for bodies of nothing to a few bytes.
fn every_kind_section(section: &mut Section) {
    for file in [file_of::<&[u8]>(&[]), few_records()] {
        for kind in 0..=255 {
            for length in 0..4 {
                for behind in 0..10 {
                    append(section, &file, behind, kind, &vec![kind; length], behind as u32);
                }
            }
        }
    }
}

/// Bodies of every length to 1,100, in room for them, in one byte less and in one more.
fn every_length_section(section: &mut Section) {
    let file = few_records();
    for length in 0..1_100 {
        let body = some_bytes(&mut section.random, length);
        for behind in [TRAILER + length - 1, TRAILER + length, TRAILER + length + 1] {
            append(section, &file, behind, REPLY_SIDE, &body, length as u32);
        }
    }
}

/// A shorter log at the start of a longer one: what is left of the longer is not the log's.
fn left_over_section(section: &mut Section) {
    for _ in 0..section.times(30_000) {
        let random = &mut section.random;
        let n = random.between(1, 9);
        let all = generate::records_of(random, n);
        let shorter = file_of(&all[..random.below(n)]);
        let behind = Hex(file_of(&all)[shorter.len()..].to_vec());
        let Offer { kind, body } = generate::offer(random);
        let salt = salt(section);
        section.check(LogAppend { file: File(shorter), behind, past: 0, kind, body, salt });
    }
}

/// A length past the buffer, whatever else is wrong; and a buffer of nothing, also as NULL.
fn past_section(section: &mut Section) {
    for salt in 0..section.times(3_000) as u32 {
        let file = generate::file(&mut section.random);
        for past in [0, 1, 2, 3, 8, 65_536, past_32_bits(0), usize::MAX / 2, usize::MAX - 1, usize::MAX] {
            let Offer { kind, body } = generate::offer(&mut section.random);
            let behind = Hex(vec![0; section.random.pick(&[0, 0, 1, 8, 300])]);
            let file = if section.random.one_in(8) { File(Vec::new()) } else { File(file.clone()) };
            section.check(LogAppend { file, behind, past, kind, body, salt });
        }
    }
}

/// Logs that a record brings to 64,998 to 65,003 bytes, with room for it, with one byte less, and with none.
fn append_to_largest_section(section: &mut Section) {
    for total in [0, 3, 32_768, 64_900, 64_995, 64_996, 64_997, 64_998, 64_999, 65_000] {
        let file = generate::file_of_total(&mut section.random, total, 40_000);
        for longer in 64_998..=65_003 {
            let length = if longer >= total + TRAILER { longer - total - TRAILER } else { longer - 64_998 };
            for kind in [REQUEST_SIDE, SILENCE, 4] {
                for behind in [0, TRAILER + length - 1, TRAILER + length] {
                    append(section, &file, behind, kind, &vec![0x7D; length], longer as u32);
                }
            }
        }
    }
}

/// Bodies whose length two bytes cannot tell, or with whose trailer it passes 65,536.
fn long_bodies_section(section: &mut Section) {
    let lengths = (65_530..65_540).chain([65_792, 65_836, 131_069, 131_072, 131_075, 196_608]);
    for length in lengths {
        for file in [file_of::<&[u8]>(&[]), few_records(), few_records()[1..].to_vec()] {
            for kind in [REPLY_SIDE, SILENCE, 0] {
                for behind in [0, 50, length + TRAILER] {
                    append(section, &file, behind, kind, &vec![0x11; length], length as u32);
                }
            }
        }
    }
}

// ---- The list

/// The first numbers that 32 bits do not hold, from so many on.
fn past_32_bits(n: usize) -> usize {
    (u32::MAX as usize).wrapping_add(1).wrapping_add(n)
}

/// Every window of short logs: skips up to the records and past them, rooms of every number.
fn every_window_section(section: &mut Section) {
    let mut files: Vec<Vec<u8>> = Vec::new();
    for n in 0..=9 {
        let all = generate::records_of(&mut section.random, n);
        files.push(file_of(&all));
    }
    files.extend((0..4).map(|_| generate::damaged_file(&mut section.random, 6)));
    let far = [255, 256, 65_536, past_32_bits(0), past_32_bits(2), usize::MAX / ROW + 1, usize::MAX - 1, usize::MAX];
    for file in files {
        for skip in (0..14).chain(far) {
            for room in 0..40 {
                for salt in [0, 1] {
                    list(section, &file, skip, room, salt);
                }
            }
        }
    }
}

fn windows_section(section: &mut Section) {
    for _ in 0..section.times(30_000) {
        let file = match section.random.below(8) {
            0 => generate::damaged_file(&mut section.random, 12),
            _ => generate::good_file(&mut section.random, 12),
        };
        let (room, salt) = (section.random.between(ROW, 24), salt(section));
        section.check(Windows { file: File(file), room, salt });
    }
}

// ---- What was added is listed

fn read_back_section(section: &mut Section) {
    for _ in 0..section.times(20_000) {
        let random = &mut section.random;
        let n = random.below(16);
        let offers: Vec<Offer> = (0..n).map(|_| generate::offer(random)).collect();
        let needed = offers.iter().map(|offer| TRAILER + offer.body.0.len()).sum::<usize>() + CLOSING;
        let room = room(random, needed);
        let salt = salt(section);
        section.check(Offers { offers, room, salt });
    }
}

/// Until no record of the next size is taken any more.
fn read_back_large_section(section: &mut Section) {
    for salt in 0..section.times(40) as u32 {
        let random = &mut section.random;
        let widest = random.pick(&[3_000, 9_000, 30_000]);
        let mut offers = Vec::new();
        for _ in 0..2 * MOST / widest + 10 {
            let n = random.below(widest);
            let (kind, body) = (random.pick(&[REQUEST_SIDE, REPLY_SIDE]), Hex(generate::body(random, n)));
            offers.push(Offer { kind, body });
        }
        let room = random.pick(&[MOST + CLOSING, MOST + CLOSING - 1, 60_000, 70_000]);
        section.check(Offers { offers, room, salt });
    }
}

pub fn run(report: &mut Report) {
    report.section("log: random files", random_files_section);
    report.section("log: damaged files", damaged_files_section);
    report.section("log: every short file", every_short_file_section);
    report.section("log: every byte changed", every_byte_section);
    report.section("log: every two bytes changed", two_bytes_section);
    report.section("log: every place cut, longer and shorter", every_place_section);
    report.section("log: counts and totals", counts_and_totals_section);
    report.section("log: every two records faulty", two_faults_section);
    report.section("log: the largest files", largest_section);
    report.section("log: the most records", most_records_section);
    report.section("log: large files damaged", large_damaged_section);
    report.section("log: the empty log", empty_section);
    report.section("log: records added", append_section);
    report.section("log: every kind added", every_kind_section);
    report.section("log: every length added", every_length_section);
    report.section("log: added before an older log's bytes", left_over_section);
    report.section("log: a length past the buffer", past_section);
    report.section("log: added up to 65,000 bytes", append_to_largest_section);
    report.section("log: bodies over 65,535 bytes", long_bodies_section);
    report.section("log: every window of a list", every_window_section);
    report.section("log: windows put together", windows_section);
    report.section("log: added and read back", read_back_section);
    report.section("log: added up to the end and read back", read_back_large_section);
}
