//! The runs of the vector file, of the file of searches and of the file of
//! mounts, recorded with the peer's answers.

use super::coverage::Coverage;
use super::driver::{Call, Driver, Format, Mount, Outcome, Peer};
use super::mounts::{self, definition::defined};
use super::random_runs::{self, Extent};
use super::scripts::{self, Runs};
use super::searches;
use super::vector_file::{digest, Writer};
use crate::{Answer, Search};

const SEED: u64 = 1813;

/// Random runs after the scripted ones: extent, how many, steps in each, the
/// largest transfer.
const RANDOM_RUNS: [(Extent, usize, usize, usize); 5] = [
    (Extent::Small, 50, 60, 250),
    (Extent::Middle, 17, 110, 250),
    (Extent::Middle, 3, 50, 5000),
    (Extent::Wide, 4, 120, 200),
    (Extent::Largest, 2, 60, 600),
];
const RAW_STORE_RUNS: usize = 30;

/// Runs the peer and writes down what it answers.
#[derive(Default)]
struct Recorder {
    peer: Peer,
    writer: Writer,
    coverage: Coverage,
    digested: u64,
}

impl Recorder {
    fn digest(&mut self) -> u64 {
        self.digested += self.peer.store.len() as u64;
        digest(&self.peer.store)
    }

    fn finish(self) -> Recording {
        let (file, stdout) = self.writer.finish();
        Recording {
            file,
            stdout,
            coverage: self.coverage,
            digested: self.digested,
        }
    }
}

impl Driver for Recorder {
    fn start(&mut self, number: u32, length: usize, _title: &str) {
        self.peer.start(length);
        self.writer.start(number, length);
    }

    fn format(&mut self, plan: Format) -> Answer {
        let answer = self.peer.format(plan);
        let digest = self.digest();
        self.writer.format(&plan, answer, digest);
        self.coverage.format(answer.number);
        answer
    }

    fn patch(&mut self, offset: usize, bytes: &[u8]) {
        self.peer.patch(offset, bytes);
        self.writer.patch(offset, bytes);
    }

    fn check(&mut self) -> Answer {
        let answer = crate::check(&self.peer.store);
        let digest = self.digest();
        self.writer.check(answer, digest);
        self.coverage.check(answer.number);
        answer
    }

    fn call(&mut self, call: Call<'_>) -> Outcome {
        let outcome = self.peer.call(call);
        let digest = self.digest();
        self.writer.call(&call, &outcome, digest);
        self.coverage.call(call.bytes, &outcome);
        outcome
    }

    fn convert(&mut self, old: &[u8]) -> Answer {
        let answer = self.peer.convert(old);
        let digest = self.digest();
        self.writer.convert(old, answer, digest);
        self.coverage.convert(answer.number);
        answer
    }

    fn store(&self) -> &[u8] {
        &self.peer.store
    }

    fn set_table(&mut self, table: &[u8]) {
        self.peer.set_table(table);
    }

    /// Each outcome is held against the definition.
    fn mount(&mut self, mount: Mount<'_>) -> Outcome {
        let wanted = defined(&mount, &self.peer.store, &self.peer.table);
        self.writer.table(&self.peer.table);
        self.coverage.mounts.before(&self.peer.table);
        let outcome = self.peer.mount(mount);
        assert_eq!(outcome.answer.number, wanted.number, "{mount:?}");
        assert_eq!(outcome.answer.offset, wanted.offset, "{mount:?}");
        assert_eq!(outcome.reply, wanted.reply, "{mount:?}");
        assert!(self.peer.table == wanted.table, "{mount:?}");
        let digest = self.digest();
        self.digested += self.peer.table.len() as u64;
        self.writer
            .mount(&mount, &outcome, &self.peer.table, digest);
        self.coverage.mounts.after(&mount, &outcome);
        outcome
    }

    fn table(&self) -> &[u8] {
        &self.peer.table
    }

    fn search(&mut self, directory: u32, name: &[u8]) -> Search {
        let search = crate::search(&self.peer.store, directory, name);
        let search = search.expect("the store passes its check");
        let digest = self.digest();
        self.writer.search(directory, name, search, digest);
        search
    }

    fn print(&mut self, text: &str) {
        self.writer.print(text);
    }

    fn print_search(&mut self) {
        self.writer.print_search();
    }

    fn note(&mut self, group: &'static str, label: &str) {
        self.coverage.note(group, label);
    }
}

/// A finished file.
pub struct Recording {
    pub file: Vec<u8>,
    /// What a replay without differences prints.
    pub stdout: String,
    pub coverage: Coverage,
    /// Bytes of stores and mount tables that a replay digests.
    pub digested: u64,
}

/// Records every run of the vector file.
pub fn record() -> Recording {
    let mut recorder = Recorder::default();
    let mut runs = Runs {
        driver: &mut recorder,
        next: 0,
    };
    scripts::all(&mut runs);
    for (extent, count, steps, transfer) in RANDOM_RUNS {
        for _ in 0..count {
            let number = runs.take_number();
            random_runs::run(runs.driver, number, SEED, extent, steps, transfer);
        }
    }
    for _ in 0..RAW_STORE_RUNS {
        let number = runs.take_number();
        random_runs::raw_store_run(runs.driver, number, SEED);
    }
    recorder.finish()
}

/// Records every run of the file of searches.
pub fn record_searches() -> Recording {
    let mut recorder = Recorder::default();
    let mut runs = Runs {
        driver: &mut recorder,
        next: 0,
    };
    searches::all(&mut runs, SEED);
    recorder.finish()
}

/// Records every run of the file of mounts.
pub fn record_mounts() -> Recording {
    let mut recorder = Recorder::default();
    let mut runs = Runs {
        driver: &mut recorder,
        next: 0,
    };
    mounts::all(&mut runs, SEED);
    recorder.finish()
}
