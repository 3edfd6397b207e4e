//! The replay against the reference: traffic of every sort cut into records, what can be tried whole, logs that fail
//! their check, and the largest logs.

use crate::board_generate::lease;
use crate::harness::*;
use crate::log::*;
use crate::log_cases::File;
use crate::log_generate::{damaged, damaged_file};
use crate::replay_cases::*;
use crate::replay_generate as generate;
use crate::replay_generate::{answer, ask, exchange, Line, Part, CALIBRATION, MARK, RESTART, VOLATILE};
use crate::salt;

fn check(section: &mut Section, file: &[u8], lease: u32, room: usize, salt: u32) {
    section.check(Replay { file: File(file.to_vec()), lease, room, salt });
}

/// With any lease and any room.
fn check_any(section: &mut Section, file: &[u8]) {
    let (lease, room) = (lease(&mut section.random), generate::room(&mut section.random));
    let salt = salt(section);
    check(section, file, lease, room, salt);
}

// ---- Random traffic

/// Two replays of each log, since a log takes longer to make than a replay.
fn traffic_section(section: &mut Section) {
    for _ in 0..section.times(400_000) {
        let file = file_of(&generate::records(&mut section.random));
        for _ in 0..2 {
            check_any(section, &file);
        }
    }
}

fn any_items_section(section: &mut Section) {
    for _ in 0..section.times(60_000) {
        let file = file_of(&generate::any_items(&mut section.random));
        check_any(section, &file);
    }
}

/// Up to 40 addresses: 19 is met or just not, and where it is, places are freed again or not.
fn crowded_section(section: &mut Section) {
    for _ in 0..section.times(12_000) {
        let file = file_of(&generate::crowded(&mut section.random));
        check_any(section, &file);
        let (lease, room) = (section.random.between(1, 3) as u32, section.random.between(25, 34));
        let salt = salt(section);
        check(section, &file, lease, room, salt);
    }
}

fn by_calls_section(section: &mut Section) {
    for _ in 0..section.times(60_000) {
        let file = match section.random.below(20) {
            0 => file_of(&generate::crowded(&mut section.random)),
            1 => damaged_file(&mut section.random, 8),
            _ => file_of(&generate::records(&mut section.random)),
        };
        let (lease, room) = (section.random.between(1, 4) as u32, generate::room(&mut section.random));
        let salt = salt(section);
        section.check(ByCalls { file: File(file), lease, room, salt });
    }
}

// ---- Every order of a few records

/// Questions to two addresses, answers of them, what is refused or not ended, and a mark.
fn few_records() -> Vec<Part> {
    let (_, mut wrong_sum) = ask(5, VOLATILE, &[0, 0, 0, 1]);
    wrong_sum[8] ^= 1;
    vec![
        ask(2, VOLATILE, &[0, 0, 0, 1]),
        ask(5, VOLATILE, &[0, 0, 0, 1]),
        ask(2, CALIBRATION, &[0, 0, 0, 1]),
        ask(2, CALIBRATION, &[]),
        // Refused as a request, refused as a stretch, and not ended yet.
        ask(2, RESTART, &[]),
        (REQUEST_SIDE, wrong_sum),
        (REQUEST_SIDE, vec![0x7E, 0x05, 0x46]),
        answer(2, VOLATILE, 0, &[]),
        answer(5, VOLATILE, 0, &[]),
        answer(2, CALIBRATION, 0, &[]),
        answer(2, VOLATILE, 0x20, &[]),
        MARK,
    ]
}

/// Every series of up to five of them, and those of up to four behind two entries and a mark.
fn every_order_section(section: &mut Section) {
    let few = few_records();
    let entries = [exchange(5, VOLATILE).to_vec(), exchange(2, VOLATILE).to_vec(), vec![MARK]].concat();
    for (before, most) in [(&[][..], 5), (&entries, 4)] {
        for length in 0..=most {
            for number in 0..few.len().pow(length) {
                let picked = (0..length).map(|at| &few[number / few.len().pow(at) % few.len()]);
                let all: Vec<Record<&[u8]>> =
                    before.iter().chain(picked).map(|(kind, body)| (*kind, &body[..])).collect();
                check(section, &file_of(&all), 1 + number as u32 % 3, 2, number as u32);
            }
        }
    }
}

// ---- Every place of a cut and of a mark

/// The bytes of parts one by one, each with its kind.
fn bytes_of(parts: &[Part]) -> Vec<Record<Vec<u8>>> {
    parts.iter().flat_map(|(kind, bytes)| bytes.iter().map(|byte| (*kind, vec![*byte]))).collect()
}

/// Bytes of one side together in a record, but for borders and marks at these places.
fn records_with(bytes: &[Record<Vec<u8>>], borders: &[usize], marks: &[usize]) -> Vec<Part> {
    let mut all: Vec<Part> = Vec::new();
    for at in 0..=bytes.len() {
        all.extend(marks.iter().filter(|mark| **mark == at).map(|_| MARK));
        if let Some((kind, byte)) = bytes.get(at) {
            match all.last_mut() {
                Some((last, body)) if *last == *kind && !borders.contains(&at) => body.extend(byte),
                _ => all.push((*kind, byte.clone())),
            }
        }
    }
    all
}

/// Short traffic with a record's border or a mark at every two places.
fn every_cut_section(section: &mut Section) {
    let together = |parts: [Vec<Part>; 3]| parts.concat();
    let talks = [
        together([exchange(2, VOLATILE).into(), exchange(5, VOLATILE).into(), exchange(2, CALIBRATION).into()]),
        together([exchange(2, VOLATILE).into(), vec![ask(5, RESTART, &[])], exchange(0x7E, VOLATILE).into()]),
        // Two questions before their answers, with 7E between them that end one frame and open the next.
        together([
            vec![ask(2, VOLATILE, &[0, 0, 0, 1]), ask(0x7D, VOLATILE, &[0x11, 0x13, 0x7E, 0x7D])],
            vec![answer(2, VOLATILE, 0, &[]), answer(0x7D, VOLATILE, 0x80, &[])],
            vec![(REPLY_SIDE, answer(0x7D, VOLATILE, 0, &[]).1[1..].to_vec())],
        ]),
    ];
    for parts in talks {
        let bytes = bytes_of(&parts);
        for first in 0..=bytes.len() {
            for second in first..=bytes.len() {
                for lease in [1, 2] {
                    for (borders, marks) in
                        [(vec![first, second], vec![]), (vec![first], vec![second]), (vec![second], vec![first])]
                    {
                        let file = file_of(&records_with(&bytes, &borders, &marks));
                        check(section, &file, lease, 3, (first + second) as u32);
                    }
                    let file = file_of(&records_with(&bytes, &[], &[first, second]));
                    check(section, &file, lease + 1, 3, first as u32);
                }
            }
        }
    }
}

/// A question's bytes and those of the answer to an older one, in every order that keeps each side's own.
fn every_interleaving_section(section: &mut Section) {
    let [older, answered] = exchange(2, VOLATILE);
    let (_, question) = ask(5, VOLATILE, &[0, 0, 0, 1]);
    let length = question.len() + answered.1.len();
    for taken in 0_u32..1 << length {
        if taken.count_ones() as usize != question.len() {
            continue;
        }
        let (mut asked, mut answer) = (question.iter().copied(), answered.1.iter().copied());
        let mut all = vec![older.clone()];
        all.extend((0..length).map(|at| match taken >> at & 1 {
            1 => (REQUEST_SIDE, Vec::from_iter(asked.next())),
            _ => (REPLY_SIDE, Vec::from_iter(answer.next())),
        }));
        check(section, &file_of(&all), 7, 1, taken);
    }
}

// ---- Whole ranges

/// Every request and every answer to it, by each number that a frame has, with an entry at the address and without one.
fn every_number_section(section: &mut Section) {
    for number in 0..=255 {
        let mut logs = vec![
            exchange(number, VOLATILE).to_vec(),
            [exchange(number, VOLATILE), exchange(number, CALIBRATION)].concat(),
            vec![ask(2, VOLATILE, &[0, 0, 0, 1]), answer(number, VOLATILE, 0, &[])],
            vec![ask(2, VOLATILE, &[number; 4]), answer(2, VOLATILE, 0, &[])],
        ];
        for n in 0..6 {
            let data = [0, 0, 0, 1, 2];
            for command in [VOLATILE, CALIBRATION] {
                logs.push(vec![ask(2, command, &[0, 0, 0, 1]), answer(2, command, number, &data[..n])]);
                logs.push(vec![ask(2, command, &[0, 0, 0, 1]), answer(2, number, 0, &data[..n])]);
                logs.push(vec![ask(2, number, &data[..n]), answer(2, command, 0, &[])]);
                logs.push(vec![ask(2, number, &[0, 1, 0, 0, 0][..n]), answer(2, number, 0, &[])]);
            }
        }
        for parts in logs {
            check(section, &file_of(&parts), 5, 2, u32::from(number));
            let before = [exchange(2, VOLATILE).to_vec(), vec![MARK], parts].concat();
            check(section, &file_of(&before), 5, 2, u32::from(number));
        }
    }
}

/// All leases up to 65,600, with no mark and with some, on a log and on what is none.
fn every_lease_section(section: &mut Section) {
    let opened = exchange(2, VOLATILE).to_vec();
    let polled = [opened.clone(), vec![MARK, MARK], exchange(5, VOLATILE).to_vec(), vec![MARK]].concat();
    let files = [file_of(&opened), file_of(&polled)];
    for lease in (0..=65_600).chain([0x0001_FFFF, 0x0002_0001, 0x7FFF_FFFF, 0x8000_0001, 0xFFFF_0001, u32::MAX]) {
        for file in &files {
            check(section, file, lease, 2, lease);
        }
        if !(9..65_528).contains(&lease) {
            for file in &files {
                check(section, file, lease, 0, lease & 1);
                check(section, &file[1..], lease, 2, lease & 1);
                check(section, &closed(&file[..file.len() - CLOSING], 77), lease, 0, lease & 1);
            }
        }
    }
}

/// Leases around the number of marks behind an opening, with marks before it; then renewed, and marks again.
fn polls_section(section: &mut Section) {
    let opening = exchange(2, VOLATILE).to_vec();
    let marks = |n| vec![MARK; n];
    for lease in 1..15 {
        for before in 0..4 {
            for polled in 0..12 {
                let once = [marks(before), opening.clone(), marks(polled)].concat();
                check(section, &file_of(&once), lease, 1, lease);
                for again in 0..12 {
                    let renewed = [once.clone(), opening.clone(), marks(again)].concat();
                    check(section, &file_of(&renewed), lease, 1, lease);
                }
            }
        }
    }
}

/// 0 to 36 entries in rooms of 0 to 36 places, those of no place also as NULL; the addresses in any order.
fn every_room_section(section: &mut Section) {
    for entries in 0..=36 {
        for room in 0..=36 {
            for salt in 0..6 {
                let addresses = generate::different(&mut section.random, entries);
                let parts: Vec<Part> = addresses.iter().flat_map(|address| exchange(*address, VOLATILE)).collect();
                let lease = if salt == 5 { 0 } else { 9 };
                check(section, &file_of(&parts), lease, room, salt);
            }
        }
    }
}

/// 31 to 34 entries, each place in turn freed before the last is opened, and after it; and an entry there renewed.
fn full_board_section(section: &mut Section) {
    for entries in 31..=34 {
        for at in 0..entries {
            let addresses = generate::different(&mut section.random, entries);
            let opened = |part: &[u8]| -> Vec<Part> { part.iter().flat_map(|one| exchange(*one, VOLATILE)).collect() };
            let (all, last) = (opened(&addresses), opened(&addresses[entries - 1..]));
            for command in [CALIBRATION, VOLATILE] {
                let other = exchange(addresses[at], command).to_vec();
                let before_last = [opened(&addresses[..entries - 1]), other.clone(), last.clone()].concat();
                let after_last = [all.clone(), other].concat();
                for parts in [before_last, after_last] {
                    for room in [31, 32, 33] {
                        check(section, &file_of(&parts), 3, room, at as u32);
                    }
                }
            }
        }
    }
}

// ---- Logs that fail their check

fn damaged_logs_section(section: &mut Section) {
    for _ in 0..section.times(150_000) {
        let file = if section.random.one_in(4) {
            damaged_file(&mut section.random, 8)
        } else {
            let records = generate::records(&mut section.random);
            if records.is_empty() {
                Vec::new()
            } else {
                damaged(&mut section.random, &records)
            }
        };
        check_any(section, &file);
    }
}

/// Logs of no entry to more than 32, good and with a wrong count, total or trailer, in several rooms and leases each.
fn order_of_refusals_section(section: &mut Section) {
    for entries in [0, 1, 31, 32, 33, 36] {
        let addresses = generate::different(&mut section.random, entries);
        let parts: Vec<Part> = addresses.iter().flat_map(|address| exchange(*address, VOLATILE)).collect();
        let good = file_of(&parts);
        let (before, closing) = good.split_at(good.len() - CLOSING);
        let mut files = vec![good.clone(), good[..good.len() - 1].to_vec(), closed(before, 99)];
        files.push([&[1][..], before, closing].concat());
        for front in [vec![1], vec![1, 0], vec![4, 0, 0], vec![1, 3, 0, 1], vec![1, 0, 9]] {
            let count = parts.len() as u32 + u32::from(front.len() > 2);
            files.push(closed(&[&front[..], before].concat(), count));
            files.push(closed(&[&front[..], before].concat(), 0));
            files.push(closed(&[before, &front[..]].concat(), count));
        }
        for file in files {
            for lease in [0, 1, 65_535, 65_536, 65_537, u32::MAX] {
                for room in [0, 1, 31, 32, 33] {
                    check(section, &file, lease, room, room as u32 + lease % 2);
                }
            }
        }
    }
}

/// Every value of every byte of short logs.
fn every_byte_section(section: &mut Section) {
    let talks = [
        [exchange(2, VOLATILE).to_vec(), vec![MARK]].concat(),
        [exchange(2, VOLATILE).to_vec(), vec![MARK, answer(2, VOLATILE, 0, &[])]].concat(),
        [exchange(2, VOLATILE).to_vec(), exchange(2, CALIBRATION).to_vec()].concat(),
        [exchange(0x11, VOLATILE).to_vec(), vec![ask(5, RESTART, &[]), answer(0x11, VOLATILE, 0, &[])]].concat(),
    ];
    for parts in talks {
        let file = file_of(&parts);
        for at in 0..file.len() {
            for value in 0..=255 {
                let mut changed = file.clone();
                changed[at] = value;
                check(section, &changed, 3, 1, u32::from(value));
            }
        }
    }
}

// ---- The largest logs

fn largest_section(section: &mut Section) {
    for _ in 0..section.times(100) {
        let random = &mut section.random;
        let (several, total) =
            (random.pick(&[1, 8, 20, 31, 60]), random.pick(&[MOST, MOST, MOST - 1, MOST + 1, 40_000]));
        let line = Line::to(random, several);
        let file = file_of(&generate::of_total(random, total, &line));
        check_any(section, &file);
    }
}

/// One record for all of each side: the last question is an opening, and the last answer is its own. Then a question
/// and an answer at the end of so many bytes of noise, or of a stretch that is too long.
fn widest_section(section: &mut Section) {
    let [(_, asked), (_, answered)] = exchange(2, VOLATILE);
    let both = asked.len() + answered.len() + 2 * TRAILER;
    for _ in 0..section.times(40) {
        let random = &mut section.random;
        let line = Line { addresses: generate::different(random, 20), spoilt: 12, marks: 1_000_000 };
        let (mut sides, mut total) = ([Vec::new(), Vec::new()], both);
        for (kind, bytes) in generate::traffic(random, &line, 4_500) {
            if kind != SILENCE && total + bytes.len() <= MOST {
                total += bytes.len();
                sides[usize::from(kind - 1)].extend(bytes);
            }
        }
        let [requests, replies] = [[&sides[0], &asked[..]].concat(), [&sides[1], &answered[..]].concat()];
        for file in [
            file_of(&[(REQUEST_SIDE, &requests), (REPLY_SIDE, &replies)]),
            file_of(&[(REPLY_SIDE, &replies), (REQUEST_SIDE, &requests)]),
        ] {
            check_any(section, &file);
        }
    }
    for n in [255, 256, 257, 32_767, 32_768, 32_769, 65_000 - both, 65_001 - both] {
        for first in [0x41, 0x7E] {
            let before = [vec![first], vec![0x41; n - 1]].concat();
            let files = [
                file_of(&[(REQUEST_SIDE, [&before, &asked[..]].concat()), (REPLY_SIDE, answered.clone())]),
                file_of(&[(REQUEST_SIDE, asked.clone()), (REPLY_SIDE, [&before, &answered[..]].concat())]),
            ];
            for file in files {
                check(section, &file, 9, 1, n as u32);
            }
        }
    }
}

/// As many records as a log can have: marks, records of nothing, and an entry opened among them.
fn most_records_section(section: &mut Section) {
    let opening = exchange(2, VOLATILE).to_vec();
    let left = (MOST - opening.iter().map(|(_, bytes)| bytes.len() + TRAILER).sum::<usize>()) / TRAILER;
    for empty in [MARK, (REQUEST_SIDE, Vec::new()), (REPLY_SIDE, Vec::new())] {
        for before in [0, 1, left / 2, left - 1, left] {
            let many = |n| vec![empty.clone(); n];
            let file = file_of(&[many(before), opening.clone(), many(left - before)].concat());
            let after = (left - before) as u32;
            for lease in [1, after.saturating_sub(1), after, after + 1, 65_535] {
                check(section, &file, lease, 1, before as u32);
            }
        }
    }
    let one_by_one: Vec<Part> = bytes_of(&generate::traffic(
        &mut section.random,
        &Line { addresses: vec![2, 5], spoilt: 1_000, marks: 1_000 },
        600,
    ));
    let fit: Vec<Part> = one_by_one.into_iter().take(MOST / (TRAILER + 1)).collect();
    check(section, &file_of(&fit), 9, 2, 0);
}

pub fn run(report: &mut Report) {
    report.section("replay: random traffic", traffic_section);
    report.section("replay: any items on both sides", any_items_section);
    report.section("replay: around 32 entries", crowded_section);
    report.section("replay: beside the other calls", by_calls_section);
    report.section("replay: every order of a few records", every_order_section);
    report.section("replay: every two borders and marks", every_cut_section);
    report.section("replay: bytes of two sides in every order", every_interleaving_section);
    report.section("replay: every number in a frame", every_number_section);
    report.section("replay: every lease", every_lease_section);
    report.section("replay: leases and marks", polls_section);
    report.section("replay: every room for a list", every_room_section);
    report.section("replay: a place freed, and the last opened", full_board_section);
    report.section("replay: damaged logs", damaged_logs_section);
    report.section("replay: the order of refusals", order_of_refusals_section);
    report.section("replay: every byte changed", every_byte_section);
    report.section("replay: the largest logs", largest_section);
    report.section("replay: the widest records", widest_section);
    report.section("replay: the most records", most_records_section);
}
