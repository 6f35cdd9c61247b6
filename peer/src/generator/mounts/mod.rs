//! The file of mounts: scripted and seeded runs of MOUNT calls, with NFS calls
//! between them that change the store.

pub mod counts;
pub mod definition;
mod place_scripts;
mod scripts;
mod seeded;
mod table_scripts;
pub mod tables;

use super::driver::{Mount, Outcome};
use super::encode::{Field, Header};
use super::lane::{status_of, Lane};
use super::rules;
use super::scripts::Runs;
use crate::numbers::{message, mount_procedure, Status};
use tables::{Row, Rows};

pub use scripts::all as all_scripts;
pub use seeded::{run, Extent};

/// Seeded runs of the file: extent, how many, steps in each.
const SEEDED_RUNS: [(Extent, usize, usize); 3] = [
    (Extent::Small, 60, 45),
    (Extent::Middle, 18, 60),
    (Extent::Full, 2, 30),
];

/// Every run of the file.
pub fn all(runs: &mut Runs<'_>, seed: u64) {
    scripts::all(runs);
    for (extent, count, steps) in SEEDED_RUNS {
        for _ in 0..count {
            let number = runs.take_number();
            seeded::run(runs.driver, number, seed, extent, steps);
        }
    }
}

/// The header of a MOUNT call.
pub fn header(xid: u32, procedure: u32) -> Header {
    Header {
        program: message::MOUNT_PROGRAM,
        ..Header::new(xid, procedure)
    }
}

/// The argument of MNT and UMNT; the other procedures have none.
pub fn fields(path: Option<&[u8]>) -> Vec<Field> {
    path.map(|path| Field::Text(path.to_vec()))
        .into_iter()
        .collect()
}

/// The bytes of a MOUNT call.
pub fn call(xid: u32, procedure: u32, path: Option<&[u8]>) -> Vec<u8> {
    header(xid, procedure).call(&super::encode::encode(&fields(path)))
}

/// A host.
const HOST: u32 = 0xC000_0201;
const OTHER_HOST: u32 = 0x0A00_0001;

/// A run with a mount table: MOUNT calls of one host after the other, and NFS
/// calls between them.
struct Gateway<'d> {
    lane: Lane<'d>,
    host: u32,
    space: usize,
}

impl<'d> Gateway<'d> {
    /// Starts with an empty table.
    fn new(lane: Lane<'d>) -> Gateway<'d> {
        lane.driver.set_table(&tables::write(&[]));
        Gateway {
            lane,
            host: HOST,
            space: crate::MOUNT_REPLY_SPACE,
        }
    }

    /// The table of these rows, from the first on.
    fn set_rows(&mut self, rows: &[Row]) {
        let rows: Rows = rows.iter().cloned().map(Some).collect();
        self.lane.driver.set_table(&tables::write(&rows));
    }

    /// The rows of the table, which passes its check.
    fn rows(&self) -> Rows {
        tables::read(self.lane.driver.table()).expect("the table passes its check")
    }

    /// How many rows are used.
    fn used(&self) -> usize {
        self.rows().iter().flatten().count()
    }

    /// Sends any bytes.
    fn raw(&mut self, bytes: &[u8]) -> Outcome {
        self.lane.driver.mount(Mount {
            bytes,
            host: self.host,
            space: self.space,
        })
    }

    fn send(&mut self, procedure: u32, path: Option<&[u8]>) -> Outcome {
        let xid = self.lane.next_xid();
        self.raw(&call(xid, procedure, path))
    }

    /// A call of a procedure that takes nothing.
    fn plain(&mut self, procedure: u32) -> Outcome {
        self.send(procedure, None)
    }

    /// A MNT that has this status.
    fn mnt(&mut self, path: &[u8], status: Status) -> Outcome {
        let before = self.lane.driver.table().to_vec();
        let outcome = self.send(mount_procedure::MNT, Some(path));
        let got = status_of(&outcome.reply);
        assert_eq!(got, Some(status.0), "{}", path.escape_ascii());
        if status != Status::OK {
            assert_eq!(outcome.reply.len(), 28);
            assert!(self.lane.driver.table() == before);
        }
        outcome
    }

    /// A MNT that leads to the directory of this handle.
    fn mnt_to(&mut self, path: &[u8], handle: &[u8]) {
        let outcome = self.mnt(path, Status::OK);
        let reply = &outcome.reply;
        assert_eq!(reply.len(), 56);
        assert_eq!(reply[24..32], [0, 0, 0, 0, 0, 0, 0, 12]);
        assert_eq!(reply[32..44], *handle, "{}", path.escape_ascii());
        assert_eq!(reply[44..], [0, 0, 0, 2, 0, 0, 0, 0, 0, 0, 0, 1]);
    }

    /// A MNT that is not added, since it fails or its pair is there.
    fn mnt_without_row(&mut self, path: &[u8], status: Status) {
        let before = self.lane.driver.table().to_vec();
        self.mnt(path, status);
        assert!(self.lane.driver.table() == before);
    }

    /// A call with a void result.
    fn void(&mut self, procedure: u32, path: Option<&[u8]>) {
        let outcome = self.send(procedure, path);
        assert_eq!(outcome.reply.len(), 24);
        assert_eq!(outcome.reply[20..], [0; 4]);
    }

    fn umnt(&mut self, path: &[u8]) {
        self.void(mount_procedure::UMNT, Some(path));
    }

    /// A call that is refused.
    fn refused(&mut self, bytes: &[u8], number: u32) {
        let (store, table) = (
            self.lane.driver.store().to_vec(),
            self.lane.driver.table().to_vec(),
        );
        let outcome = self.raw(bytes);
        assert_eq!(outcome.answer.number, number);
        assert_eq!(outcome.answer.length, 0);
        assert!(self.lane.driver.store() == store);
        assert!(self.lane.driver.table() == table);
    }

    /// Counts a rule that the script has just seen hold.
    fn rule(&mut self, label: &str) {
        assert!(
            rules::mount::all().iter().any(|known| known == label),
            "{label}"
        );
        self.lane.driver.note(rules::MOUNT_GROUP, label);
    }

    fn rules(&mut self, labels: &[&str]) {
        for label in labels {
            self.rule(label);
        }
    }
}

/// A path of exactly so many bytes: the given one after many slashes.
fn long_path(length: usize, end: &[u8]) -> Vec<u8> {
    let mut path = vec![b'/'; length - end.len()];
    path.extend(end);
    path
}

/// Rows of one host, with the paths "/0", "/1" and so on.
fn numbered_rows(host: u32, count: usize) -> Vec<Row> {
    (0..count)
        .map(|number| Row::new(host, format!("/{number}").as_bytes()))
        .collect()
}

/// Rows of one host and paths of 1,024 bytes that differ in one byte only.
pub fn alike_rows(host: u32, differs_at: usize) -> Vec<Row> {
    (0..crate::mount_table::ROWS)
        .map(|number| {
            let mut path = vec![b'/'; crate::mount_table::MAX_PATH];
            path[differs_at] = b'0' + number as u8;
            Row::new(host, &path)
        })
        .collect()
}
