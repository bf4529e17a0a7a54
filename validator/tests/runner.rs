//! The making of journals and the running of a program.

use std::collections::{BTreeMap, BTreeSet};
use std::fs;
use std::os::unix::fs::PermissionsExt;
use std::path::{Path, PathBuf};
use std::time::Duration;

use second_validator::charge::Charge;
use second_validator::journal::{charge, records, seal, stakes, BLOCK, FULL, ITEMS};
use second_validator::listing::listing;
use second_validator::record::{Kind, Ledger, Record, RECORD};
use second_validator::runner::families::{self, Plan};
use second_validator::runner::full::{self, Fill};
use second_validator::runner::process::{PrivateFolder, Runner};
use second_validator::runner::store;
use second_validator::running::RunningBook;
use second_validator::sha256;

fn plan(journals: usize) -> Plan {
    Plan {
        seed: 11,
        journals,
        long: false,
    }
}

/// How often each answer of a record, and each fault, is listed.
fn answers(listing: &[u8], tally: &mut BTreeMap<(bool, u32), usize>) {
    for line in String::from_utf8_lossy(listing).lines().skip(1) {
        let fields: Vec<&str> = line.split(' ').collect();
        let key = match fields[0] {
            "fault" => (true, fields[1].parse().unwrap()),
            "open" => continue,
            _ => (false, fields[2].parse().unwrap()),
        };
        *tally.entry(key).or_default() += 1;
    }
}

#[test]
fn families_reach_every_answer() {
    let mut tallies: BTreeMap<String, BTreeMap<(bool, u32), usize>> = BTreeMap::new();
    families::each(&plan(200), |family| {
        let tally = tallies.entry(family.name().to_string()).or_default();
        for index in (0..family.count()).step_by(3) {
            answers(&listing(&family.sample(index).journal), tally);
        }
        Ok::<(), ()>(())
    })
    .unwrap();
    for family in ["faults", "full_tables"] {
        for answer in [0, 21, 22, 23, 24, 25, 31, 41, 51] {
            let count = tallies[family].get(&(false, answer)).copied();
            assert!(count > Some(10), "{family} {answer} {count:?}");
        }
    }
    for fault in [11, 12, 13, 14] {
        let count = tallies["damage"].get(&(true, fault)).copied();
        assert!(count > Some(50), "damage {fault} {count:?}");
    }
    assert!(tallies["openings"][&(true, 2)] > 10);
    assert!(tallies["openings"][&(true, 14)] > 5);
}

/// A record with an account that is not open.
#[derive(Clone, Copy, Debug, PartialEq, Eq, PartialOrd, Ord)]
struct Absent {
    kind: u8,
    ledger: u8,
    sender: bool,
    receiver: bool,
    /// What is answered once its accounts are open.
    beside: u8,
}

/// The records of a sound journal with an account that is not open. What the
/// journal lists for them is held to 22 and 51.
fn absent_accounts(journal: &[u8]) -> BTreeSet<Absent> {
    let [home, far] = [&journal[..BLOCK], &journal[BLOCK..]].map(stakes);
    let mut book = RunningBook::open(&home, &far, charge(journal, 0)).unwrap();
    let open = |ledger, account: u16| {
        let stakes = if ledger == Ledger::Home { &home } else { &far };
        usize::from(account) < stakes.len()
    };
    let text = String::from_utf8(listing(journal)).unwrap();
    let listed = text.lines().skip(2).map(|line| line.split(' ').nth(2));
    let blocks = journal[2 * BLOCK..].chunks_exact(BLOCK);
    let mut found = BTreeSet::new();
    for (bytes, listed) in blocks.flat_map(records).zip(listed) {
        if let Some(record) = Record::read(bytes) {
            let (from, to) = match record.kind {
                Kind::Local(ledger) => (ledger, ledger),
                Kind::Sending(ledger) => (ledger, ledger.other()),
                Kind::Arrival(ledger) => (ledger.other(), ledger),
            };
            let [sender, receiver] = [open(from, record.sender), open(to, record.receiver)];
            if !sender || !receiver {
                let number = if sender { "51" } else { "22" };
                assert_eq!(listed, Some(number), "{record:?}");
                let opened = Record {
                    sender: if sender { record.sender } else { 0 },
                    receiver: if receiver { record.receiver } else { 0 },
                    ..record
                };
                found.insert(Absent {
                    kind: bytes[0],
                    ledger: bytes[1],
                    sender: !sender,
                    receiver: !receiver,
                    beside: book.judge(&opened.bytes()).unwrap_or(0),
                });
            }
        }
        book.call(bytes);
    }
    found
}

/// Each kind on each ledger with one account or both not open, and with each of
/// some answers beside it; 31 in place of 0, 25 and 41 for arrivals, which no
/// passed sending matches.
fn every_absent(beside: &[u8]) -> BTreeSet<Absent> {
    let mut all = BTreeSet::new();
    for kind in 1..=3 {
        for ledger in 0..=1 {
            for (sender, receiver) in [(false, true), (true, false), (true, true)] {
                for &beside in beside {
                    let beside = match beside {
                        0 | 25 | 41 if kind == 3 => 31,
                        other => other,
                    };
                    all.insert(Absent {
                        kind,
                        ledger,
                        sender,
                        receiver,
                        beside,
                    });
                }
            }
        }
    }
    all
}

#[test]
fn families_have_every_sort_of_absent_accounts() {
    let mut of_worlds = [BTreeSet::new(), BTreeSet::new()];
    let mut named = 0;
    families::each(&plan(0), |family| {
        for index in 0..family.count() {
            let sample = family.sample(index);
            let absent = || absent_accounts(&sample.journal);
            if let Some(rest) = sample.name.strip_prefix("absent_accounts_") {
                let passed = if rest.ends_with("true") { 41 } else { 0 };
                let missing: Vec<Absent> = every_absent(&[passed, 23, 24, 25])
                    .difference(&absent())
                    .copied()
                    .collect();
                assert_eq!(missing, [], "{rest}");
                named += 1;
            }
            for (world, name) in ["world_3_", "world_4_"].into_iter().enumerate() {
                if sample.name.starts_with(name) {
                    of_worlds[world].extend(absent());
                }
            }
        }
        Ok::<(), ()>(())
    })
    .unwrap();
    assert_eq!(named, 4);
    for found in of_worlds {
        let wanted = every_absent(&[0, 23, 24, 25]);
        assert_eq!(wanted.difference(&found).next(), None);
    }
}

#[test]
fn families_make_the_same_journals_again() {
    let gather = || {
        let mut all = Vec::new();
        families::each(&plan(30), |family| {
            for index in (0..family.count()).step_by(41) {
                let sample = family.sample(index);
                all.push((sample.name, sample.journal));
            }
            Ok::<(), ()>(())
        })
        .unwrap();
        all
    };
    assert!(gather() == gather());
}

#[test]
fn tables_fill_early_or_late() {
    for (fill, from, to) in [(Fill::Early, 0.0, 0.1), (Fill::Late, 0.95, 1.0)] {
        let journal = full::journal(3, fill, Charge::NONE, 3_000);
        let text = String::from_utf8(listing(&journal)).unwrap();
        let passed: Vec<usize> = text
            .lines()
            .skip(2)
            .enumerate()
            .filter(|(_, line)| line.split(' ').nth(2) == Some("0"))
            .map(|(index, _)| index)
            .collect();
        assert_eq!(passed.len(), 1_024);
        let last = *passed.last().unwrap() as f64 / (2_998.0 * 14.0);
        assert!((from..to).contains(&last), "{fill:?} {last}");
    }
}

#[test]
fn stored_journals() {
    let samples = store::samples();
    let mut size = 0;
    let mut tally = BTreeMap::new();
    for sample in &samples {
        let lawful = |c: char| c.is_ascii_lowercase() || c.is_ascii_digit() || c == '_';
        assert!(sample.name.chars().all(lawful), "{}", sample.name);
        let listed = listing(&sample.journal);
        size += sample.journal.len() + listed.len();
        answers(&listed, &mut tally);
        let told = ["refusal_", "fault_"].map(|prefix| sample.name.strip_prefix(prefix));
        if let Some(number) = told.into_iter().flatten().next() {
            let wanted: u32 = number[..2].parse().unwrap();
            let mut own = BTreeMap::new();
            answers(&listed, &mut own);
            assert!(
                own.keys().any(|&(_, number)| number == wanted),
                "{}",
                sample.name
            );
        }
    }
    assert!(samples.len() == 92 && size < 1_700_000);
    for key in [2, 11, 12, 13, 14, 52].map(|number| (true, number)) {
        assert!(tally.contains_key(&key));
    }
    for key in [0, 21, 22, 23, 24, 25, 31, 41, 51].map(|number| (false, number)) {
        assert!(tally.contains_key(&key));
    }
}

fn stored(name: &str) -> Vec<u8> {
    let mut samples = store::samples().into_iter();
    samples.find(|sample| sample.name == name).unwrap().journal
}

#[test]
fn stored_journals_of_absent_accounts() {
    for (name, counts, [more, fewer]) in [
        ("refusal_51", [4, 2], [0, 1]),
        ("refusal_51_far_larger", [2, 4], [1, 0]),
    ] {
        let journal = stored(name);
        assert_eq!([journal[5], journal[BLOCK + 5]], counts, "{name}");
        let found = absent_accounts(&journal);
        assert!(found.is_superset(&every_absent(&[0])), "{name} {found:?}");
        // Kind, ledger, sender and receiver of crossings with account 2 or 3,
        // which are open on the larger ledger only: where they are not open,
        // then where they are.
        let blocks = journal[2 * BLOCK..].chunks_exact(BLOCK);
        let crossings: BTreeSet<(u8, u8, u16, u16)> = blocks
            .flat_map(records)
            .filter_map(Record::read)
            .map(|record| {
                let [kind, ledger] = [record.kind.byte(), record.ledger().byte()];
                (kind, ledger, record.sender, record.receiver)
            })
            .collect();
        for crossing in [
            (2, more, 3, 2),
            (2, fewer, 2, 3),
            (3, fewer, 3, 2),
            (3, more, 2, 3),
            (2, more, 3, 1),
            (2, fewer, 1, 3),
            (3, fewer, 3, 1),
            (3, more, 1, 3),
        ] {
            assert!(crossings.contains(&crossing), "{name} {crossing:?}");
        }
        let answers = ledgers_and_answers(&journal);
        let passed = answers.iter().filter(|(_, answer)| *answer == 0);
        assert_eq!(passed.count(), 7, "{name}");
    }
}

#[test]
fn stored_order_of_51() {
    let journal = stored("order_of_51");
    let found = absent_accounts(&journal);
    for wanted in every_absent(&[0, 23, 24, 25]) {
        // Beside 22 either nothing or all of them are due.
        let met = found.contains(&wanted) || wanted.sender && wanted.beside != 23;
        // By U2 the used number is not one of an arrival.
        let not_used = wanted.kind == 3 && wanted.beside == 24;
        assert!(met || !wanted.receiver || not_used, "{wanted:?}");
    }
    let answers = ledgers_and_answers(&journal);
    for (place, (_, answer)) in answers.iter().enumerate() {
        assert_eq!(*answer == 0, place < 2 || place % 2 == 1, "{place}");
    }
    for (answer, of_each_kind) in [(21, 2), (22, 2), (51, 5)] {
        for ledger in [0, 1] {
            let same = |other: &&(u8, u32)| **other == (ledger, answer);
            assert_eq!(answers.iter().filter(same).count(), 3 * of_each_kind);
        }
    }
}

/// How many numbers a ledger has passed in both classes.
fn numbers_of_both_classes(journal: &[u8], ledger: u8) -> usize {
    let text = String::from_utf8(listing(journal)).unwrap();
    let answers = text.lines().skip(2).map(|line| line.split(' ').nth(2));
    let blocks = journal[2 * BLOCK..].chunks_exact(BLOCK);
    let mut classes: BTreeMap<&[u8], BTreeSet<bool>> = BTreeMap::new();
    for (bytes, answer) in blocks.flat_map(records).zip(answers) {
        if answer == Some("0") && bytes[1] == ledger {
            let arrival = bytes[0] == 3;
            classes.entry(&bytes[8..16]).or_default().insert(arrival);
        }
    }
    classes.values().filter(|both| both.len() == 2).count()
}

#[test]
fn stored_journals_of_both_classes() {
    for (name, both) in [
        ("local_then_arrival_home", [1, 0]),
        ("local_then_arrival_far", [0, 1]),
        ("arrival_then_local_home", [2, 0]),
        ("arrival_then_local_far", [0, 2]),
        ("refusal_24_local_and_sending", [2, 2]),
        ("two_crossings_of_one_number", [6, 6]),
        ("refusal_31_no_sending", [2, 2]),
        ("both_classes", [36, 36]),
        ("refusal_41_both_classes_home", [256, 1]),
        ("refusal_41_both_classes_far", [1, 256]),
        ("refusal_41_both_classes_alike", [256, 256]),
        ("long_140_blocks_both_classes", [99, 100]),
    ] {
        let journal = stored(name);
        let found = [0, 1].map(|ledger| numbers_of_both_classes(&journal, ledger));
        assert_eq!(found, both, "{name}");
    }
}

#[test]
fn stored_listings_of_u2() {
    for (name, answers) in [
        ("local_then_arrival_home", "0 0 0 24 24 24 24"),
        ("local_then_arrival_far", "0 0 0 24 24 24 24"),
        ("arrival_then_local_far", "0 0 0 24 24 24 0 0 0 24 24 24"),
        (
            "refusal_24_local_and_sending",
            "0 24 0 24 0 24 0 24 0 24 0 24 0 24 0 24 0 0 0 0",
        ),
        (
            "refusal_31_no_sending",
            "0 0 31 0 31 0 24 0 31 0 0 31 0 31 0 24 0 31",
        ),
        // Stored before U2.
        ("honest_same_number", "0 0 0 0 0 0 0 0 0"),
        ("refusal_24", "0 24 24 31 0 24 0 24 0 24 0"),
    ] {
        let listed: Vec<String> = ledgers_and_answers(&stored(name))
            .iter()
            .map(|(_, answer)| answer.to_string())
            .collect();
        assert_eq!(listed.join(" "), answers, "{name}");
    }
    let journal = stored("local_then_arrival_far");
    let text = String::from_utf8(listing(&journal)).unwrap();
    let expected = "\
record number answer home far flight
open - 0 150 20 0
0 0000000000000007 0 120 20 30
1 0000000000000007 0 120 20 30
2 0000000000000007 0 120 50 0
3 0000000000000007 24 120 50 0
";
    assert!(text.starts_with(expected), "{text}");
}

/// Numbers that a ledger passes in both classes, and every list of five records
/// of one number.
#[test]
fn families_have_numbers_of_both_classes() {
    let mut found: BTreeMap<String, usize> = BTreeMap::new();
    let mut blocks = 0;
    families::each(&plan(300), |family| {
        for index in 0..family.count() {
            let sample = family.sample(index);
            let seeded = sample.name.starts_with("seeded");
            if seeded && ["honest", "faults", "near_misses", "full_tables"].contains(&family.name())
            {
                let both = [0, 1].map(|ledger| numbers_of_both_classes(&sample.journal, ledger));
                *found.entry(family.name().to_string()).or_default() += both[0] + both[1];
            }
            if sample.name.starts_with("one_number_") {
                blocks += sample.journal.len() / BLOCK - 2;
            }
        }
        Ok::<(), ()>(())
    })
    .unwrap();
    assert_eq!(found.len(), 4);
    assert!(found.values().all(|&count| count > 50), "{found:?}");
    // 36 journals of 216 lists of five records.
    assert_eq!(blocks, 36 * (216 * 5_usize).div_ceil(FULL));
}

/// Stored journals keep their bytes: the digest of those from before U2.
#[test]
fn stored_journals_from_before_u2_stay() {
    let mut all = Vec::new();
    let samples = store::samples();
    for sample in &samples[..65] {
        all.extend(sample.name.bytes());
        all.extend(sha256::digest(&sample.journal));
    }
    let digest: String = sha256::digest(&all)
        .iter()
        .map(|byte| format!("{byte:02x}"))
        .collect();
    assert_eq!(
        digest,
        "1450a23c624c92d307cdf196ccf8ecc05c97db34ae9e5e799a7ff2a90b75d253"
    );
}

/// The ledger byte and the answer of each listed record.
fn ledgers_and_answers(journal: &[u8]) -> Vec<(u8, u32)> {
    let text = String::from_utf8(listing(journal)).unwrap();
    let records = text.lines().skip(2).filter(|line| !line.starts_with('f'));
    let of_record = |(index, line): (usize, &str)| {
        let block = &journal[(2 + index / FULL) * BLOCK..];
        let ledger = block[ITEMS + index % FULL * RECORD + 1];
        (ledger, line.split(' ').nth(2).unwrap().parse().unwrap())
    };
    records.enumerate().map(of_record).collect()
}

#[test]
fn lengths_of_long_stored_journals() {
    for (name, blocks, last, listed) in [
        ("long_130_blocks", 130, 14, 128 * FULL),
        ("long_131_blocks", 131, 1, 128 * FULL + 1),
        ("long_150_blocks_bad_last", 150, 14, 147 * FULL),
        ("long_140_blocks_both_classes", 140, 14, 138 * FULL),
    ] {
        let journal = stored(name);
        assert_eq!(journal.len(), blocks * BLOCK, "{name}");
        assert_eq!(journal[(blocks - 1) * BLOCK + 5], last, "{name}");
        assert_eq!(ledgers_and_answers(&journal).len(), listed, "{name}");
        let text = String::from_utf8(listing(&journal)).unwrap();
        let fault = text.lines().find(|line| line.starts_with("fault"));
        let bad = name.ends_with("bad_last");
        assert_eq!(fault, bad.then_some("fault 12 149"), "{name}");
    }
}

/// A long stored journal, the last check put right.
struct Sound {
    journal: Vec<u8>,
    /// The ledger whose table fills first, and the block to which it surely has
    /// places.
    full: u8,
    until: usize,
    /// What is answered to the last record.
    last: u32,
}

/// The long stored journals. In two of those from before U2 the other table is
/// full too when the last record comes.
fn long_sound() -> [Sound; 5] {
    [
        ("long_130_blocks", 0, 120, 41),
        ("long_131_blocks", 1, 120, 0),
        ("long_150_blocks_bad_last", 0, 105, 41),
        ("long_140_blocks_both_classes", 1, 125, 0),
        ("long_135_blocks_charge", 0, 120, 0),
    ]
    .map(|(name, full, until, last)| {
        let mut journal = stored(name);
        let at = journal.len() - BLOCK;
        seal(&mut journal[at..]);
        Sound {
            journal,
            full,
            until,
            last,
        }
    })
}

#[test]
fn long_stored_journals_pass_and_refuse_to_their_end() {
    for Sound {
        journal,
        full,
        until,
        last,
    } in long_sound()
    {
        let answers = ledgers_and_answers(&journal);
        assert_eq!(answers.len().div_ceil(FULL) + 2, journal.len() / BLOCK);
        // Within any six blocks both ledgers pass records, as long as they
        // have places, and some are refused.
        for (at, some) in answers.chunks_exact(6 * FULL).enumerate() {
            let block = 2 + 6 * at;
            assert!(some.contains(&(full, 0)) || block >= until, "{block}");
            assert!(some.contains(&(1 - full, 0)), "{block}");
            assert!(some.iter().any(|&(_, answer)| answer != 0), "{block}");
        }
        for quarter in answers.chunks(answers.len().div_ceil(4)) {
            for answer in [21, 22, 23, 24, 25, 31, 51] {
                assert!(quarter.contains(&(0, answer)), "{answer}");
                assert!(quarter.contains(&(1, answer)), "{answer}");
            }
        }
        let count = |ledger, answer| {
            let same = |other: &&(u8, u32)| **other == (ledger, answer);
            answers.iter().filter(same).count()
        };
        assert_eq!(count(full, 0), 512);
        assert!(count(full, 41) > 20);
        let (passed, none_left) = (count(1 - full, 0), count(1 - full, 41));
        match last {
            0 => assert!((490..512).contains(&passed) && none_left == 0),
            _ => assert!(passed == 512 && (1..20).contains(&none_left)),
        }
    }
}

#[test]
fn long_stored_journals_end_with_what_they_began() {
    for Sound {
        journal,
        full,
        last: answer,
        ..
    } in long_sound()
    {
        let blocks = journal.len() / BLOCK;
        let record = |block: usize, place: usize| {
            let at = block * BLOCK + ITEMS + place * RECORD;
            &journal[at..at + RECORD]
        };
        let first = record(2, 0);
        let count = usize::from(journal[(blocks - 1) * BLOCK + 5]);
        let last = record(blocks - 1, count - 1);
        assert_eq!((first[0], last[0]), (2, 3));
        assert_eq!((first[1], last[1]), (full, 1 - full));
        assert_eq!(first[2..], last[2..]);
        let answers = ledgers_and_answers(&journal);
        assert_eq!(answers.last(), Some(&(1 - full, answer)));
        // The figures of the opening do not come back, so that a book opened
        // anew in any block shows.
        let text = String::from_utf8(listing(&journal)).unwrap();
        let figures = |line: &str| line.splitn(4, ' ').nth(3).unwrap().to_string();
        let opened = figures(text.lines().nth(1).unwrap());
        assert!(text.lines().skip(2).all(|line| figures(line) != opened));
    }
}

/// A program for the runner.
fn script(folder: &Path, name: &str, text: &str) -> PathBuf {
    let path = folder.join(name);
    fs::write(&path, format!("#!/bin/sh\n{text}\n")).unwrap();
    fs::set_permissions(&path, fs::Permissions::from_mode(0o700)).unwrap();
    path
}

#[test]
fn programs_that_do_right_and_wrong() {
    let folder = PrivateFolder::new().unwrap();
    let own = env!("CARGO_BIN_EXE_second-validator");
    let run = |worker, text: &str, journal: &[u8]| {
        let program = script(folder.path(), &format!("program_{worker}"), text);
        let limit = Duration::from_secs(2);
        let runner = Runner::new(&program, folder.path(), worker, limit);
        runner.run(journal, 1_000).unwrap()
    };
    let journal = full::journal(1, Fill::Early, Charge::new(50, 7), 400);
    let right = run(0, &format!("exec '{own}' list"), &journal);
    assert!(right.fault.is_none() && right.output == listing(&journal));
    let silent = run(1, "exit 3", &journal);
    assert!(silent.fault.is_none() && silent.output.is_empty());
    let killed = run(2, "kill -9 $$", &journal);
    assert!(killed.fault.is_some());
    let endless = run(3, "exec cat /dev/zero", &journal);
    assert!(endless.fault.is_some());
    let hanging = run(4, "exec sleep 60", &journal);
    assert!(hanging.fault.is_some());
}

#[test]
fn private_folder_goes_away() {
    let folder = PrivateFolder::new().unwrap();
    let path = folder.path().to_path_buf();
    fs::write(path.join("file"), "x").unwrap();
    drop(folder);
    assert!(!path.exists());
}
