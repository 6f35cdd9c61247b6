//! Seeded runs: MOUNT calls of several hosts, with NFS calls between them that
//! make, rename and remove directories. Tables fill up, rows become free in
//! the middle and are taken again; some tables and stores are damaged for one
//! call.

use super::super::broken_calls::{any_authenticators, break_by_chance, Itemized};
use super::super::driver::Driver;
use super::super::encode::{Attributes, Header, Request};
use super::super::lane::*;
use super::super::padding::Padded;
use super::super::random::Random;
use super::super::view::View;
use super::tables::{self, row_at, Row, DAMAGES};
use super::*;
use crate::layout::{word, Shape, MAX_BLOCKS, MAX_NAMES, MAX_OBJECTS};
use crate::mount_table::{row_field, MAX_PATH, ROWS, TABLE_BYTES};

/// How large the store of a run is.
#[derive(Clone, Copy, PartialEq, Eq, Debug)]
pub enum Extent {
    /// A few records.
    Small,
    /// Up to a few dozen records.
    Middle,
    /// All that a store can have.
    Full,
}

impl Extent {
    fn shape(self, random: &mut Random) -> Shape {
        let (objects, names, blocks) = match self {
            Extent::Small => (
                random.between(3, 10),
                random.between(4, 12),
                random.below(3),
            ),
            Extent::Middle => (
                random.between(12, 34),
                random.between(12, 40),
                random.below(4),
            ),
            Extent::Full => (MAX_OBJECTS, MAX_NAMES, MAX_BLOCKS),
        };
        Shape {
            objects,
            names,
            blocks,
        }
    }
}

/// Names of files and directories, few enough to come again.
const NAMES: [&[u8]; 10] = [
    b"a",
    b"b",
    b"ab",
    b"c",
    b"deck",
    b"...",
    b"0123456789",
    b"exactly-thirty-two-bytes-of-name",
    b"exactly-thirty-one-bytes-of-nam",
    b"\xFF\x01",
];

/// Components that fail or are special.
const ODD: [&[u8]; 8] = [
    b"missing",
    b".",
    b"..",
    b"\0",
    b"a\0",
    b"a-name-of-exactly-thirty-three-by",
    b"....",
    b"A",
];

const HOSTS: [u32; 10] = [
    0,
    u32::MAX,
    0xC000_0201,
    0x0A00_0001,
    0x0102_0304,
    0x0A00_0100,
    0x6401_0A0B,
    0xC000_0202,
    1,
    0x0100_0000,
];

/// A run under way.
struct MountRun<'d> {
    gate: Gateway<'d>,
    random: Random,
    view: View,
    hosts: Vec<u32>,
    /// Whether more pairs are added than struck.
    filling: bool,
}

/// One run of so many steps.
pub fn run(driver: &mut dyn Driver, number: u32, seed: u64, extent: Extent, steps: usize) {
    let mut random = Random::part(seed ^ 0x4D4F_554E_5433, u64::from(number));
    let shape = extent.shape(&mut random);
    let stamp = random.pick(&[0, 1, 0x0102_0304, u32::MAX]);
    let lane = Lane::open(driver, number, "seeded MOUNT run", shape, stamp);
    let view = View::of(lane.driver.store()).expect("a formatted store passes its check");
    let mut gate = Gateway::new(lane);
    gate.space = random.pick(&[33_692, 33_692, 33_693, 33_800]);
    let hosts = (0..random.between(1, 4))
        .map(|_| random.pick(&HOSTS))
        .collect();
    let mut run = MountRun {
        gate,
        random,
        view,
        hosts,
        filling: true,
    };
    for _ in 0..shape.objects / 2 {
        let request = run.making();
        run.change(&request);
    }
    if run.random.once_in(2) {
        let used = run.random.between(1, ROWS);
        run.refill(used);
    }
    for _ in 0..steps {
        run.step();
    }
}

impl MountRun<'_> {
    fn step(&mut self) {
        match self.random.below(100) {
            0..=55 => self.call(),
            56..=61 => self.broken_call(),
            62..=77 => {
                let request = self.request();
                self.change(&request);
            }
            78..=83 => self.damaged_table(),
            84..=85 => self.damaged_store(),
            86..=88 => self.cut_call(),
            89..=91 => self.changed_call(),
            92..=93 => self.odd_header(),
            94 => self.odd_entry(),
            95..=96 => self.filling = !self.filling,
            97 => {
                let used = self.random.pick(&[0, 1, 20, 30, 31, 32]);
                self.refill(used);
            }
            98 => {
                let length = self.random.pick(&[0, 7, 8, 11, 12, 39, 40, 41, 100]);
                let bytes = self.random.bytes(length);
                self.send(&bytes);
            }
            _ => {
                self.gate.lane.driver.check();
            }
        }
    }

    /// Sends bytes from one of the hosts.
    fn send(&mut self, bytes: &[u8]) {
        self.gate.host = self.random.pick(&self.hosts);
        self.gate.raw(bytes);
    }

    /// The procedure of a call, and its path.
    fn asked(&mut self) -> (u32, Option<Vec<u8>>) {
        let procedure = match (self.filling, self.random.below(100)) {
            (true, 0..=71) | (false, 0..=34) => mount_procedure::MNT,
            (true, 72..=83) | (false, 35..=79) => mount_procedure::UMNT,
            (_, 84..=90) => mount_procedure::DUMP,
            (_, 91..=93) => mount_procedure::NULL,
            (_, 94..=96) => mount_procedure::EXPORT,
            // Seldom while the table fills up.
            (true, _) if !self.random.once_in(4) => mount_procedure::DUMP,
            _ => mount_procedure::UMNTALL,
        };
        let path = match procedure {
            mount_procedure::MNT => Some(self.path(4)),
            mount_procedure::UMNT => Some(self.path(15)),
            _ => None,
        };
        (procedure, path)
    }

    /// A call, one of three with old memory as padding.
    fn padded(&mut self) -> Padded {
        let (procedure, path) = self.asked();
        let mut header = header(self.gate.lane.next_xid(), procedure);
        if self.random.once_in(10) {
            header.credential = (1, vec![0xC1; self.random.below(8)]);
            header.verifier = (0, vec![0xC2; self.random.below(8)]);
        }
        let mut padded = Padded::new(&header, &fields(path.as_deref()));
        if self.random.once_in(3) {
            padded.fill_all(&mut self.random);
        }
        padded
    }

    fn call(&mut self) {
        let padded = self.padded();
        self.send(&padded.bytes);
    }

    /// A used row of the table, which is sound.
    fn row(&mut self) -> Option<Row> {
        let table = self.gate.lane.driver.table();
        let start = self.random.below(ROWS);
        let at = (0..ROWS)
            .map(|number| row_at((start + number) % ROWS))
            .find(|at| word(table, at + row_field::LENGTH) != 0)?;
        let length = word(table, at + row_field::LENGTH) as usize;
        let path = &table[at + row_field::PATH..][..length];
        Some(Row::new(word(table, at), path))
    }

    /// The components of a live object's path.
    fn components(&mut self, object: usize) -> Vec<Vec<u8>> {
        let mut components = Vec::new();
        let mut below = object;
        loop {
            let names = self.view.names.iter();
            let named: Vec<_> = names.filter(|named| named.child == below).collect();
            // Only a file may have several names.
            let named = match &named[..] {
                [] => break,
                [only] => only,
                several => self.random.pick(several),
            };
            components.push(named.name.clone());
            below = named.directory;
        }
        components.reverse();
        components
    }

    /// A path; in so many of 20 cases that of a row of the table.
    fn path(&mut self, known: usize) -> Vec<u8> {
        if self.random.below(20) < known {
            if let Some(row) = self.row() {
                return row.path;
            }
        }
        let live = self.random.below(self.view.live.len());
        let mut object = &self.view.live[live];
        if !object.directory && !self.random.once_in(4) {
            object = &self.view.live[0];
        }
        let object = object.object;
        let mut components = self.components(object);
        let random = &mut self.random;
        if random.once_in(5) {
            let at = random.below(components.len() + 1);
            components.insert(at, random.pick(&ODD).to_vec());
        }
        let mut path = Vec::new();
        for component in &components {
            match random.below(16) {
                0 => path.extend(b"/."),
                1 => path.extend(b"/"),
                2 => {
                    path.push(b'/');
                    path.extend(component);
                    path.extend(b"/..");
                }
                _ => {}
            }
            path.push(b'/');
            path.extend(component);
        }
        match random.below(10) {
            0 => path.extend(b"/"),
            1 => path.extend(b"//"),
            2 => path.extend(b"/."),
            3 => path.extend(b"/.."),
            _ => {}
        }
        if path.is_empty() {
            path.push(b'/');
        }
        match random.below(40) {
            0 => {
                path.remove(0);
            }
            1 => path.clear(),
            2 | 3 => {
                let length = random.pick(&[900, 1021, 1022, 1023, 1024, 1025, 1028]);
                let mut long = vec![b'/'; length - path.len().min(length)];
                long.extend(&path);
                path = long;
            }
            4..=12 => path
                .splice(0..0, b"/.".repeat(random.below(3)))
                .for_each(drop),
            _ => {}
        }
        path
    }

    /// The handle of a live directory.
    fn directory(&mut self) -> Vec<u8> {
        let directories: Vec<&[u8]> = self
            .view
            .live
            .iter()
            .filter(|seen| seen.directory)
            .map(|seen| &seen.handle[..])
            .collect();
        self.random.pick(&directories).to_vec()
    }

    /// A name that exists, with its directory's handle and whether it is a
    /// directory's.
    fn named(&mut self) -> Option<(Vec<u8>, Vec<u8>, bool)> {
        let count = self.view.names.len();
        let at = (count > 0).then(|| self.random.below(count))?;
        let named = &self.view.names[at];
        let directory = self.view.handle(named.directory)?.to_vec();
        let name = named.name.clone();
        Some((directory, name, self.view.is_directory(named.child)))
    }

    /// A request that makes a directory, or seldom a file or another name of
    /// one.
    fn making(&mut self) -> Request {
        let directory = self.directory();
        let name = self.random.pick(&NAMES);
        if self.random.once_in(10) {
            let files = self.view.live.iter().filter(|seen| !seen.directory);
            let files: Vec<&[u8]> = files.map(|seen| &seen.handle[..]).collect();
            if !files.is_empty() {
                return link(self.random.pick(&files), &directory, name);
            }
        }
        if self.random.once_in(5) {
            guarded(&directory, name, Attributes::default())
        } else {
            mkdir(&directory, name, Attributes::default())
        }
    }

    /// An NFS call that changes names.
    fn request(&mut self) -> Request {
        let Some((directory, name, is_directory)) = self.named() else {
            return self.making();
        };
        match self.random.below(10) {
            0..=3 => self.making(),
            4..=6 => {
                let to = self.directory();
                let to_name = self.random.pick(&NAMES);
                rename(&directory, &name, &to, to_name)
            }
            7 => lookup(&directory, &name),
            _ if is_directory => rmdir(&directory, &name),
            _ => remove(&directory, &name),
        }
    }

    /// Sends an NFS call and looks at the store anew.
    fn change(&mut self, request: &Request) {
        self.gate.lane.send(request);
        if let Some(view) = View::of(self.gate.lane.driver.store()) {
            self.view = view;
        }
    }

    /// Another sound table with so many used rows, at any places.
    fn refill(&mut self, used: usize) {
        let mut rows = vec![None; ROWS];
        for number in 0..used {
            let row = Row::new(self.random.pick(&self.hosts), &self.path(0));
            let fits = row.path.first() == Some(&b'/') && row.path.len() <= MAX_PATH;
            let at = (number * 13 + 5) % ROWS;
            let known = rows.contains(&Some(row.clone()));
            rows[at] = Some(if fits && !known {
                row
            } else {
                Row::new(row.host, format!("/row/{number}").as_bytes())
            });
        }
        self.gate.lane.driver.set_table(&tables::write(&rows));
    }

    /// One call with a damaged table.
    fn damaged_table(&mut self) {
        let padded = self.padded();
        let sound = self.gate.lane.driver.table().to_vec();
        let mut table = sound.clone();
        if self.random.once_in(6) {
            for _ in 0..self.random.between(1, 3) {
                let row = row_at(self.random.below(ROWS));
                let at = self.random.pick(&[
                    self.random.clone().below(8),
                    self.random.clone().below(40),
                    self.random.clone().below(1032),
                ]);
                table[row + at] ^= 1 << self.random.below(8);
            }
        } else {
            let damage = self.random.pick(&DAMAGES);
            damage.apply(&mut table, &mut self.random);
        }
        self.gate.lane.driver.set_table(&table);
        self.send(&padded.bytes);
        self.gate.lane.driver.set_table(&sound);
    }

    /// One call with a store of which one byte is another.
    fn damaged_store(&mut self) {
        let records = self.gate.lane.shape.block_count_at() + 4;
        let at = self.random.below(records);
        let kept = self.gate.lane.driver.store()[at];
        let changed = kept ^ (1 << self.random.below(8));
        self.gate.lane.driver.patch(at, &[changed]);
        self.call();
        self.gate.lane.driver.patch(at, &[kept]);
    }

    /// A call without its last bytes, or with more.
    fn cut_call(&mut self) {
        let mut bytes = self.padded().bytes;
        let length = match self.random.below(4) {
            0 => self.random.below(bytes.len() + 1),
            1 => bytes.len() - self.random.between(1, 4),
            _ => bytes.len() + self.random.between(1, 8),
        };
        bytes.resize(length, self.random.pick(&[0, 0xFF]));
        self.send(&bytes);
    }

    /// A call that is cut, lengthened or has fields damaged, behind a header
    /// of any length.
    fn broken_call(&mut self) {
        let (procedure, path) = self.asked();
        let mut header = header(self.gate.lane.next_xid(), procedure);
        any_authenticators(&mut header, &mut self.random);
        let mut call = Itemized::new(&header, &fields(path.as_deref()));
        if self.random.once_in(3) {
            call.fill_pads(self.random.pick(&[1, b'/', 0xFF]));
        }
        let bytes = break_by_chance(&call, &mut self.random);
        self.send(&bytes);
    }

    /// A call with one byte changed, or its path's length.
    fn changed_call(&mut self) {
        let mut bytes = self.padded().bytes;
        let at = match self.random.below(3) {
            0 if bytes.len() > 43 => 40 + self.random.below(4),
            1 => self.random.below(40),
            _ => self.random.below(bytes.len()),
        };
        bytes[at] ^= 1 << self.random.below(8);
        self.send(&bytes);
    }

    /// A call of another RPC version, program, version or procedure.
    fn odd_header(&mut self) {
        let random = &mut self.random;
        let mut odd = Header {
            program: random.pick(&[100_003, 100_005, 100_005, 100_005, 0]),
            version: random.pick(&[3, 3, 3, 0, 1, 2, 4]),
            procedure: random.pick(&[0, 1, 5, 6, 7, 21, u32::MAX]),
            ..Header::new(random.word(), 0)
        };
        if random.once_in(6) {
            odd.rpc_version = random.pick(&[0, 1, 3]);
        }
        if random.once_in(6) {
            odd.credential = (7, vec![1; random.pick(&[399, 400, 401])]);
        }
        let bytes = odd.encode();
        if self.random.once_in(3) {
            self.gate.lane.raw(&bytes);
            self.gate.lane.raw(&call(1, odd.procedure, Some(b"/")));
        }
        self.send(&bytes);
    }

    /// A reply space that is too small, or a call that is too long, with a
    /// table of another length.
    fn odd_entry(&mut self) {
        let sound = self.gate.lane.driver.table().to_vec();
        let space = self.gate.space;
        let mut bytes = self.padded().bytes;
        if self.random.once_in(2) {
            self.gate.space = self.random.pick(&[0, 1, 4224, 33_688, 33_691]);
        }
        if self.random.once_in(3) {
            bytes.resize(self.random.pick(&[8192, 8193]), 0);
        }
        if self.random.once_in(2) {
            let mut table = sound.clone();
            table.resize(self.random.pick(&[0, TABLE_BYTES - 1, TABLE_BYTES + 4]), 0);
            self.gate.lane.driver.set_table(&table);
        }
        self.send(&bytes);
        self.gate.space = space;
        self.gate.lane.driver.set_table(&sound);
    }
}
