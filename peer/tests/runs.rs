//! Random runs on the peer alone: what holds for every call, whatever it is.

use std::collections::BTreeMap;

mod common;
use common::plain::{plain_check, plain_old_check};
use common::plain_names::plain_names;
use common::store_of;
use peer::generator::driver::{is_garbage, Call, Driver, Format, Mount, Outcome, Peer};
use peer::generator::lane::status_of;
use peer::generator::mounts::{self, definition::defined};
use peer::generator::places;
use peer::generator::random_runs::{self, Extent, LINKS, RENAMES};
use peer::generator::scripts::{self, Runs};
use peer::Answer;

/// Runs the peer and tests every outcome.
#[derive(Default)]
struct Tester {
    peer: Peer,
    calls: usize,
    /// NFS calls by their answers, and those that are GARBAGE_ARGS.
    answers: BTreeMap<u32, usize>,
    garbage: usize,
    /// MOUNT calls by their answers, and those that changed the table.
    mounts: BTreeMap<u32, usize>,
    mounted: usize,
    changed: usize,
    damaged: usize,
    /// Conversions answered 0, 1 and 6.
    converted: [usize; 3],
    /// REMOVEs, RENAMEs and LINKs that were made a second time.
    renamed: usize,
    /// RENAMEs of random runs onto names that exist, by kind and status.
    renames: BTreeMap<String, usize>,
    /// What random runs do with names of files.
    links: BTreeMap<String, usize>,
}

impl Driver for Tester {
    fn start(&mut self, _number: u32, length: usize, _title: &str) {
        self.peer.start(length);
    }

    fn format(&mut self, plan: Format) -> Answer {
        let before = self.peer.store.clone();
        let answer = self.peer.format(plan);
        assert_eq!(answer.length, 0);
        if answer.number == 0 {
            assert!(plain_check(&self.peer.store));
        } else {
            assert!([3, 6].contains(&answer.number));
            assert!(before == self.peer.store);
        }
        answer
    }

    fn patch(&mut self, offset: usize, bytes: &[u8]) {
        self.peer.patch(offset, bytes);
    }

    fn check(&mut self) -> Answer {
        let answer = peer::check(&self.peer.store);
        let number = u32::from(!plain_check(&self.peer.store));
        let wanted_answer = Answer {
            number,
            length: 0,
            offset: 0,
        };
        assert_eq!(answer, wanted_answer);
        answer
    }

    fn call(&mut self, call: Call<'_>) -> Outcome {
        let before = self.peer.store.clone();
        let valid = plain_check(&before);
        let outcome = self.peer.call(call);
        self.calls += 1;
        *self.answers.entry(outcome.answer.number).or_default() += 1;
        self.garbage += usize::from(is_garbage(&outcome.reply));
        let place = places::of_call(&call, &before);
        let got = (outcome.answer.number, outcome.answer.offset);
        assert_eq!(got, (place.number, place.offset));
        let wanted = if call.space < 4224 {
            2
        } else if call.nanoseconds >= 1_000_000_000 {
            3
        } else if call.bytes.len() > 8192 {
            4
        } else if !valid {
            1
        } else {
            outcome.answer.number
        };
        assert_eq!(outcome.answer.number, wanted);
        self.damaged += usize::from(wanted == 1);
        let reply = &outcome.reply;
        match wanted {
            0 => {
                assert!((24..=4224).contains(&reply.len()) && reply.len().is_multiple_of(4));
                assert_eq!(reply[..4], call.bytes[..4]);
                assert!(plain_check(&self.peer.store));
            }
            1..=5 | 7..=9 => assert!(reply.is_empty()),
            other => panic!("answer {other}"),
        }
        if status_of(reply).is_some() {
            let renamed = plain_names(&before, call.bytes, call.seconds, call.nanoseconds);
            if let Some((store, result)) = renamed {
                assert!(self.peer.store == store);
                assert_eq!(reply[24..], result);
                self.renamed += 1;
            }
        }
        if status_of(reply) == Some(0) {
            self.changed += usize::from(before != self.peer.store);
        } else {
            assert!(before == self.peer.store);
        }
        outcome
    }

    fn convert(&mut self, old: &[u8]) -> Answer {
        let before = self.peer.store.clone();
        let answer = self.peer.convert(old);
        let (number, wanted) = if !plain_old_check(old) {
            (1, before)
        } else {
            let store = store_of(old);
            if store.len() == before.len() {
                (0, store)
            } else {
                (6, before)
            }
        };
        let wanted_answer = Answer {
            number,
            length: 0,
            offset: 0,
        };
        assert_eq!(answer, wanted_answer);
        assert!(self.peer.store == wanted);
        self.converted[number.min(2) as usize] += 1;
        answer
    }

    fn store(&self) -> &[u8] {
        &self.peer.store
    }

    fn set_table(&mut self, table: &[u8]) {
        self.peer.set_table(table);
    }

    fn mount(&mut self, mount: Mount<'_>) -> Outcome {
        let (store, table) = (self.peer.store.clone(), self.peer.table.clone());
        let wanted = defined(&mount, &store, &table);
        let outcome = self.peer.mount(mount);
        assert!(self.peer.store == store);
        assert!(self.peer.table == wanted.table);
        assert_eq!(outcome.answer.number, wanted.number);
        assert_eq!(outcome.answer.offset, wanted.offset);
        assert_eq!(outcome.reply, wanted.reply);
        if wanted.number == 0 {
            assert!((24..=33_692).contains(&outcome.reply.len()));
            assert!(peer::mount_table::sound(&self.peer.table));
        } else {
            assert_eq!(outcome.answer.length, 0);
            assert!(self.peer.table == table);
        }
        *self.mounts.entry(wanted.number).or_default() += 1;
        self.mounted += usize::from(self.peer.table != table);
        outcome
    }

    fn table(&self) -> &[u8] {
        &self.peer.table
    }

    fn note(&mut self, group: &'static str, label: &str) {
        if group == RENAMES {
            *self.renames.entry(label.to_owned()).or_default() += 1;
        } else if group == LINKS {
            *self.links.entry(label.to_owned()).or_default() += 1;
        }
    }
}

#[test]
fn scripted_runs() {
    let mut tester = Tester::default();
    let mut runs = Runs {
        driver: &mut tester,
        next: 0,
    };
    scripts::all(&mut runs);
    assert!(tester.calls > 3000 && tester.changed > 300 && tester.damaged > 200);
    assert!(tester.converted[0] > 200 && tester.converted[1] > 500 && tester.converted[2] > 6);
    assert!(tester.renamed > 400);
}

#[test]
fn random_runs() {
    let mut tester = Tester::default();
    for number in 0..180 {
        random_runs::run(&mut tester, number, 99, Extent::Small, 80, 600);
        random_runs::raw_store_run(&mut tester, number, 98);
    }
    for number in 0..50 {
        random_runs::run(&mut tester, number, 97, Extent::Middle, 120, 5000);
    }
    for number in 0..12 {
        random_runs::run(&mut tester, number, 96, Extent::Wide, 200, 600);
    }
    random_runs::run(&mut tester, 0, 95, Extent::Largest, 40, 5000);
    assert!(tester.calls > 10_000 && tester.changed > 1500 && tester.damaged > 200);
    assert!(tester.converted[0] > 100 && tester.converted[1] > 50);
    assert!(tester.renamed > 900);
    for (answer, least) in [(5, 40), (7, 40), (8, 150), (9, 100)] {
        let count = tester.answers[&answer];
        assert!(count >= least, "answer {answer}: {count}");
    }
    assert!(tester.garbage > 800, "{}", tester.garbage);
    // Each kind of RENAME onto a name that exists has one status.
    let renames: Vec<(&str, usize)> = tester
        .renames
        .iter()
        .map(|(label, &count)| (&label[..], count))
        .collect();
    let wanted = [
        ("below itself, INVAL", 50),
        ("directory over a full one, EXIST", 15),
        ("directory over an empty one, OK", 80),
        ("directory over file, EXIST", 15),
        ("file over directory, EXIST", 15),
        ("file over one of several names of a file, OK", 100),
        ("file over the last name of a file, OK", 50),
        ("onto another name of the same file, OK", 30),
        ("onto itself, OK", 50),
    ];
    assert_eq!(renames.len(), wanted.len(), "{renames:?}");
    for ((label, count), (wanted, least)) in renames.into_iter().zip(wanted) {
        assert_eq!(label, wanted);
        assert!(count >= least, "{label}: {count}");
    }
    let kinds = random_runs::link_kinds();
    assert_eq!(tester.links.len(), kinds.len(), "{:?}", tester.links);
    for kind in kinds {
        let count = tester.links[&kind];
        let least = if kind.starts_with("READDIR") { 4 } else { 20 };
        assert!(count >= least, "{kind}: {count}");
    }
}

/// Every MOUNT call has the outcome that the papers ask for, written down a
/// second time.
#[test]
fn mount_runs() {
    let mut tester = Tester::default();
    let mut runs = Runs {
        driver: &mut tester,
        next: 0,
    };
    mounts::all_scripts(&mut runs);
    for number in 0..40 {
        mounts::run(&mut tester, number, 94, mounts::Extent::Small, 200);
    }
    for number in 0..10 {
        mounts::run(&mut tester, number, 93, mounts::Extent::Middle, 200);
    }
    mounts::run(&mut tester, 0, 92, mounts::Extent::Full, 40);
    for (answer, least) in [
        (0, 6000),
        (1, 100),
        (2, 30),
        (4, 10),
        (5, 25),
        (7, 40),
        (8, 80),
        (9, 10),
        (12, 700),
    ] {
        let count = tester.mounts.remove(&answer).unwrap_or_default();
        assert!(count >= least, "answer {answer}: {count}");
    }
    assert!(tester.mounts.is_empty());
    assert!(tester.mounted > 2000, "{}", tester.mounted);
}
