//! Vector files: writing them, and replaying them on any implementation.

use std::ops::Range;

use super::driver::{Call, Format, Mount, Outcome, FRESH, MAX_PATCH, SPARE};
use crate::{Answer, Search};

/// The tags of the rows.
mod tag {
    // Numbers that an entry is given. One of 64 bits has this tag and the next.
    pub const STORE_LENGTH: u8 = 0;
    pub const CALL_LENGTH: u8 = 1;
    pub const REPLY_LENGTH: u8 = 2;
    pub const PLACE: u8 = 3;
    pub const SECONDS: u8 = 4;
    pub const NANOSECONDS: u8 = 5;
    pub const VERIFIER: u8 = 6;
    pub const STAMP: u8 = 8;
    pub const OBJECTS: u8 = 9;
    pub const NAMES: u8 = 10;
    pub const BLOCKS: u8 = 11;
    pub const OLD_LENGTH: u8 = 12;
    pub const DIRECTORY: u8 = 13;
    pub const TABLE_LENGTH: u8 = 14;
    pub const HOST: u8 = 15;
    pub const LAST_GIVEN: u8 = 15;
    // Numbers that must come back.
    pub const LENGTH: u8 = 64;
    pub const STORE_DIGEST: u8 = 65;
    pub const COMPARED: u8 = 67;
    pub const TABLE_DIGEST: u8 = 68;
    pub const OFFSET: u8 = 70;
    pub const LAST_WANTED: u8 = 70;
    // Bytes of buffers.
    pub const STORE: u8 = 128;
    pub const CALL: u8 = 129;
    pub const REPLY: u8 = 130;
    pub const OLD: u8 = 131;
    // Bytes that a replay prints.
    pub const TEXT: u8 = 132;
    // Bytes of the mount table.
    pub const TABLE: u8 = 133;
    // Runs, the last search as a replay prints it, and a table of zeros.
    pub const RUN: u8 = 192;
    pub const END: u8 = 193;
    pub const SHOW: u8 = 194;
    pub const CLEAR_TABLE: u8 = 195;
    // Entries.
    pub const FORMAT_ENTRY: u8 = 224;
    pub const CHECK_ENTRY: u8 = 225;
    pub const CALL_ENTRY: u8 = 226;
    pub const CONVERT_ENTRY: u8 = 227;
    pub const SEARCH_ENTRY: u8 = 228;
    pub const MOUNT_ENTRY: u8 = 229;
}

/// The room for each buffer.
const LARGEST_STORE: usize = 535_829;
const LARGEST_CALL: usize = 10_000;
const LARGEST_REPLY: usize = 33_800;
const LARGEST_OLD: usize = 535_061;
const LARGEST_TABLE: usize = 33_056;
/// The longest text of one row.
const LARGEST_TEXT: usize = 160;

/// The digest of a buffer: two 32-bit lanes over every byte in order.
pub fn digest(bytes: &[u8]) -> u64 {
    let (mut first, mut second) = (2_166_136_261u32, 1u32);
    for &byte in bytes {
        first = first.wrapping_mul(16_777_619).wrapping_add(byte.into());
        second = second
            .wrapping_mul(2_246_822_519)
            .wrapping_add(u32::from(byte) + 1);
    }
    (u64::from(first) << 32) | u64::from(second)
}

/// The table of numbers, by tag.
struct Numbers([u32; 256]);

impl Default for Numbers {
    fn default() -> Numbers {
        Numbers([0; 256])
    }
}

impl Numbers {
    fn set(&mut self, tag: u8, value: u32) {
        self.0[usize::from(tag)] = value;
    }

    fn get(&self, tag: u8) -> u32 {
        self.0[usize::from(tag)]
    }

    fn size(&self, tag: u8) -> usize {
        self.get(tag) as usize
    }

    fn hyper(&self, tag: u8) -> u64 {
        (u64::from(self.get(tag)) << 32) | u64::from(self.get(tag + 1))
    }
}

/// How many steps of each kind there were.
#[derive(Default)]
struct Counts {
    runs: u32,
    calls: u32,
    formats: u32,
    checks: u32,
    conversions: u32,
    searches: u32,
    mounts: u32,
}

impl Counts {
    /// Counts a call of an entry.
    fn step(&mut self, entry: u8) {
        match entry {
            tag::FORMAT_ENTRY => self.formats += 1,
            tag::CHECK_ENTRY => self.checks += 1,
            tag::CONVERT_ENTRY => self.conversions += 1,
            tag::SEARCH_ENTRY => self.searches += 1,
            tag::MOUNT_ENTRY => self.mounts += 1,
            _ => self.calls += 1,
        }
    }

    /// The last line of a replay.
    fn total(&self, differences: u64) -> String {
        format!(
            "total: {} runs, {} calls, {} formats, {} checks, {} conversions, {} searches, \
             {} mounts, {differences} differences\n",
            self.runs,
            self.calls,
            self.formats,
            self.checks,
            self.conversions,
            self.searches,
            self.mounts
        )
    }
}

/// What the entry answers for a search: 0, or the record's number plus 1.
fn answer_of(search: &Search) -> Answer {
    Answer {
        number: search.found.map_or(0, |record| record as u32 + 1),
        length: 0,
        offset: 0,
    }
}

/// How a replay prints a search, after a text.
fn line_of(search: &Search) -> String {
    let pairs = search.compared;
    match search.found {
        Some(record) => format!(" record {record}, {pairs} pairs\n"),
        None => format!(" no record, {pairs} pairs\n"),
    }
}

/// Writes a vector file and the text of its replay.
#[derive(Default)]
pub struct Writer {
    bytes: Vec<u8>,
    /// What a replay has printed so far.
    printed: String,
    /// The last search.
    search: Search,
    numbers: Numbers,
    counts: Counts,
    /// The bytes of the call that are written so far.
    call: Vec<u8>,
    /// The bytes of the old image that are written so far.
    old: Vec<u8>,
    /// The bytes of the mount table as they stand, as far as they were lent.
    table: Vec<u8>,
}

/// What a row of bytes costs beside them: its own head and that of its place.
const ROW_COST: usize = 10;

/// What the rows of these pieces cost.
fn cost(pieces: &[Range<usize>]) -> usize {
    pieces.iter().map(|piece| ROW_COST + piece.len()).sum()
}

/// Lets the known bytes begin with these.
fn learn(known: &mut Vec<u8>, bytes: &[u8]) {
    known.resize(known.len().max(bytes.len()), 0);
    known[..bytes.len()].copy_from_slice(bytes);
}

/// Where the bytes are unlike those that are known, in as few pieces as pay.
pub(super) fn unlike(known: &[u8], bytes: &[u8]) -> Vec<Range<usize>> {
    let mut pieces: Vec<Range<usize>> = Vec::new();
    for (at, byte) in bytes.iter().enumerate() {
        if known.get(at) == Some(byte) {
            continue;
        }
        match pieces.last_mut() {
            Some(last) if at <= last.end + ROW_COST && at < last.start + MAX_PATCH => {
                last.end = at + 1;
            }
            _ => pieces.push(at..at + 1),
        }
    }
    pieces
}

impl Writer {
    fn row(&mut self, tag: u8, word: u32) {
        self.bytes.push(tag);
        self.bytes.extend(word.to_be_bytes());
    }

    /// Gives a number its value, if it has another.
    fn number(&mut self, tag: u8, value: u32) {
        if self.numbers.get(tag) != value {
            self.numbers.set(tag, value);
            self.row(tag, value);
        }
    }

    fn hyper(&mut self, tag: u8, value: u64) {
        self.number(tag, (value >> 32) as u32);
        self.number(tag + 1, value as u32);
    }

    fn buffer(&mut self, tag: u8, place: usize, bytes: &[u8]) {
        if bytes.is_empty() {
            return;
        }
        self.number(tag::PLACE, place as u32);
        self.row(tag, bytes.len() as u32);
        self.bytes.extend(bytes);
    }

    /// Calls an entry, of which this must come back.
    fn step(&mut self, entry: u8, answer: Answer, digest: u64) {
        self.number(tag::LENGTH, answer.length);
        self.number(tag::OFFSET, answer.offset);
        self.hyper(tag::STORE_DIGEST, digest);
        self.row(entry, answer.number);
        self.counts.step(entry);
    }

    pub fn start(&mut self, number: u32, length: usize) {
        assert!(length <= LARGEST_STORE);
        self.counts.runs += 1;
        assert_eq!(number, self.counts.runs);
        self.number(tag::STORE_LENGTH, length as u32);
        self.row(tag::RUN, number);
    }

    pub fn format(&mut self, plan: &Format, answer: Answer, digest: u64) {
        self.number(tag::STAMP, plan.stamp);
        self.number(tag::OBJECTS, plan.objects);
        self.number(tag::NAMES, plan.names);
        self.number(tag::BLOCKS, plan.blocks);
        self.number(tag::SECONDS, plan.seconds);
        self.number(tag::NANOSECONDS, plan.nanoseconds);
        self.step(tag::FORMAT_ENTRY, answer, digest);
    }

    pub fn patch(&mut self, offset: usize, bytes: &[u8]) {
        assert!(bytes.len() <= MAX_PATCH);
        self.buffer(tag::STORE, offset, bytes);
    }

    pub fn check(&mut self, answer: Answer, digest: u64) {
        self.step(tag::CHECK_ENTRY, answer, digest);
    }

    pub fn convert(&mut self, old: &[u8], answer: Answer, digest: u64) {
        assert!(old.len() <= LARGEST_OLD);
        self.number(tag::OLD_LENGTH, old.len() as u32);
        for piece in unlike(&self.old, old) {
            self.buffer(tag::OLD, piece.start, &old[piece]);
        }
        learn(&mut self.old, old);
        self.step(tag::CONVERT_ENTRY, answer, digest);
    }

    /// Lends these bytes as the call.
    fn lend_call(&mut self, call: &[u8]) {
        assert!(call.len() <= LARGEST_CALL);
        self.number(tag::CALL_LENGTH, call.len() as u32);
        for piece in unlike(&self.call, call) {
            self.buffer(tag::CALL, piece.start, &call[piece]);
        }
        learn(&mut self.call, call);
    }

    pub fn call(&mut self, call: &Call<'_>, outcome: &Outcome, digest: u64) {
        assert!(call.space <= LARGEST_REPLY);
        self.number(tag::SECONDS, call.seconds);
        self.number(tag::NANOSECONDS, call.nanoseconds);
        self.hyper(tag::VERIFIER, call.verifier);
        self.lend_call(call.bytes);
        self.number(tag::REPLY_LENGTH, call.space as u32);
        self.buffer(tag::REPLY, 0, &outcome.reply);
        self.step(tag::CALL_ENTRY, outcome.answer, digest);
    }

    pub fn search(&mut self, directory: u32, name: &[u8], search: Search, digest: u64) {
        self.number(tag::DIRECTORY, directory);
        self.lend_call(name);
        self.number(tag::COMPARED, search.compared);
        self.step(tag::SEARCH_ENTRY, answer_of(&search), digest);
        self.search = search;
    }

    /// Lends these bytes as the mount table.
    pub fn table(&mut self, table: &[u8]) {
        assert!(table.len() <= LARGEST_TABLE);
        self.number(tag::TABLE_LENGTH, table.len() as u32);
        let mut pieces = unlike(&self.table, table);
        let from_zeros = unlike(&[0; LARGEST_TABLE], table);
        if 5 + cost(&from_zeros) < cost(&pieces) {
            self.row(tag::CLEAR_TABLE, 0);
            self.table = vec![0; LARGEST_TABLE];
            pieces = from_zeros;
        }
        for piece in pieces {
            self.buffer(tag::TABLE, piece.start, &table[piece]);
        }
        learn(&mut self.table, table);
    }

    /// A MOUNT call, after which the table is this one.
    pub fn mount(&mut self, mount: &Mount<'_>, outcome: &Outcome, table: &[u8], store: u64) {
        assert!(mount.space <= LARGEST_REPLY);
        self.number(tag::HOST, mount.host);
        self.lend_call(mount.bytes);
        self.number(tag::REPLY_LENGTH, mount.space as u32);
        self.buffer(tag::REPLY, 0, &outcome.reply);
        self.hyper(tag::TABLE_DIGEST, digest(table));
        self.step(tag::MOUNT_ENTRY, outcome.answer, store);
        learn(&mut self.table, table);
    }

    /// Lets a replay print a text.
    pub fn print(&mut self, text: &str) {
        assert!(text.len() <= LARGEST_TEXT);
        self.row(tag::TEXT, text.len() as u32);
        self.bytes.extend(text.as_bytes());
        self.printed.push_str(text);
    }

    /// Lets a replay print the last search.
    pub fn print_search(&mut self) {
        self.row(tag::SHOW, 0);
        self.printed.push_str(&line_of(&self.search));
    }

    /// The vector file and the text of its replay.
    pub fn finish(mut self) -> (Vec<u8>, String) {
        self.row(tag::END, self.counts.runs);
        self.printed.push_str(&self.counts.total(0));
        (self.bytes, self.printed)
    }
}

/// An implementation to be replayed on.
pub trait Subject {
    fn format(&mut self, store: &mut [u8], plan: &Format) -> Answer;
    fn check(&mut self, store: &[u8]) -> Answer;
    fn call(&mut self, store: &mut [u8], call: &Call<'_>, reply: &mut [u8]) -> Answer;
    fn convert(&mut self, old: &[u8], store: &mut [u8]) -> Answer;
    fn mount(
        &mut self,
        store: &[u8],
        table: &mut [u8],
        mount: &Mount<'_>,
        reply: &mut [u8],
    ) -> Answer;

    /// Searches a directory; `None` if the store fails its check. It is the
    /// peer's search where an implementation shows none.
    fn search(&mut self, store: &[u8], directory: u32, name: &[u8]) -> Option<Search> {
        crate::search(store, directory, name)
    }
}

/// The peer's own entry points.
pub struct Own;

impl Subject for Own {
    fn format(&mut self, store: &mut [u8], plan: &Format) -> Answer {
        crate::format(
            store,
            plan.stamp,
            plan.objects,
            plan.names,
            plan.blocks,
            plan.seconds,
            plan.nanoseconds,
        )
    }

    fn check(&mut self, store: &[u8]) -> Answer {
        crate::check(store)
    }

    fn call(&mut self, store: &mut [u8], call: &Call<'_>, reply: &mut [u8]) -> Answer {
        crate::call(
            call.bytes,
            store,
            reply,
            call.seconds,
            call.nanoseconds,
            call.verifier,
        )
    }

    fn convert(&mut self, old: &[u8], store: &mut [u8]) -> Answer {
        crate::convert(old, store)
    }

    fn mount(
        &mut self,
        store: &[u8],
        table: &mut [u8],
        mount: &Mount<'_>,
        reply: &mut [u8],
    ) -> Answer {
        crate::mount(mount.bytes, store, table, reply, mount.host)
    }
}

/// The vector file from the next row on.
struct Source<'a> {
    rest: &'a [u8],
}

impl<'a> Source<'a> {
    fn take(&mut self, count: usize) -> Option<&'a [u8]> {
        let (taken, rest) = self.rest.split_at_checked(count)?;
        self.rest = rest;
        Some(taken)
    }

    fn row(&mut self) -> Option<(u8, u32)> {
        let row = self.take(5)?;
        Some((row[0], u32::from_be_bytes([row[1], row[2], row[3], row[4]])))
    }
}

/// The lent buffers, and the reply space as it must be after the step.
struct Buffers {
    store: Vec<u8>,
    call: Vec<u8>,
    old: Vec<u8>,
    reply: Vec<u8>,
    wanted: Vec<u8>,
    table: Vec<u8>,
    /// The digest of the table after the last MOUNT call.
    table_digest: u64,
    /// The last search.
    search: Search,
}

impl Buffers {
    fn new() -> Buffers {
        Buffers {
            store: vec![FRESH; LARGEST_STORE],
            call: vec![0; LARGEST_CALL],
            old: vec![SPARE; LARGEST_OLD],
            reply: vec![SPARE; LARGEST_REPLY],
            wanted: vec![SPARE; LARGEST_REPLY],
            table: vec![SPARE; LARGEST_TABLE],
            table_digest: 0,
            search: Search::default(),
        }
    }

    /// Takes bytes of a buffer from the file, inside what is lent of it.
    fn read(&mut self, tag: u8, numbers: &Numbers, bytes: &[u8]) -> Option<()> {
        let (buffer, length) = match tag {
            tag::STORE => (&mut self.store, tag::STORE_LENGTH),
            tag::CALL => (&mut self.call, tag::CALL_LENGTH),
            tag::REPLY => (&mut self.wanted, tag::REPLY_LENGTH),
            tag::OLD => (&mut self.old, tag::OLD_LENGTH),
            tag::TABLE => (&mut self.table, tag::TABLE_LENGTH),
            _ => return None,
        };
        let place = numbers.size(tag::PLACE);
        buffer
            .get_mut(..numbers.size(length))?
            .get_mut(place..place + bytes.len())?
            .copy_from_slice(bytes);
        Some(())
    }

    /// Calls an entry; says whether all came back that is wanted.
    fn step(
        &mut self,
        entry: u8,
        number: u32,
        numbers: &Numbers,
        subject: &mut dyn Subject,
    ) -> Option<bool> {
        let store = self.store.get_mut(..numbers.size(tag::STORE_LENGTH))?;
        let call = self.call.get(..numbers.size(tag::CALL_LENGTH))?;
        let reply = self.reply.get_mut(..numbers.size(tag::REPLY_LENGTH))?;
        let old = self.old.get(..numbers.size(tag::OLD_LENGTH))?;
        let table = self.table.get_mut(..numbers.size(tag::TABLE_LENGTH))?;
        let (seconds, nanoseconds) = (numbers.get(tag::SECONDS), numbers.get(tag::NANOSECONDS));
        let answer = match entry {
            tag::FORMAT_ENTRY => subject.format(
                store,
                &Format {
                    stamp: numbers.get(tag::STAMP),
                    objects: numbers.get(tag::OBJECTS),
                    names: numbers.get(tag::NAMES),
                    blocks: numbers.get(tag::BLOCKS),
                    seconds,
                    nanoseconds,
                },
            ),
            tag::CHECK_ENTRY => subject.check(store),
            tag::CALL_ENTRY => {
                let call = Call {
                    bytes: call,
                    seconds,
                    nanoseconds,
                    verifier: numbers.hyper(tag::VERIFIER),
                    space: reply.len(),
                };
                subject.call(store, &call, reply)
            }
            tag::CONVERT_ENTRY => subject.convert(old, store),
            tag::SEARCH_ENTRY => {
                self.search = subject.search(store, numbers.get(tag::DIRECTORY), call)?;
                answer_of(&self.search)
            }
            tag::MOUNT_ENTRY => {
                let mount = Mount {
                    bytes: call,
                    host: numbers.get(tag::HOST),
                    space: reply.len(),
                };
                let answer = subject.mount(store, table, &mount, reply);
                self.table_digest = digest(table);
                answer
            }
            _ => return None,
        };
        let wanted = Answer {
            number,
            length: numbers.get(tag::LENGTH),
            offset: numbers.get(tag::OFFSET),
        };
        let agrees = answer == wanted
            && self.search.compared == numbers.get(tag::COMPARED)
            && self.table_digest == numbers.hyper(tag::TABLE_DIGEST)
            && self.reply == self.wanted
            && digest(store) == numbers.hyper(tag::STORE_DIGEST);
        self.reply.fill(SPARE);
        self.wanted.fill(SPARE);
        Some(agrees)
    }
}

/// Replays a vector file. Answers what a replay prints, but for the lines of
/// differences, and how many steps differed, or `None` if the file is not
/// well-formed.
pub fn replay(file: &[u8], subject: &mut dyn Subject) -> Option<(Vec<u8>, u64)> {
    let mut source = Source { rest: file };
    let mut printed = Vec::new();
    let mut numbers = Numbers::default();
    let mut buffers = Buffers::new();
    let mut counts = Counts::default();
    let mut differences = 0;
    loop {
        let (tag, word) = source.row()?;
        match tag {
            0..=tag::LAST_GIVEN | tag::LENGTH..=tag::LAST_WANTED => numbers.set(tag, word),
            tag::TEXT => {
                let length = Some(word as usize).filter(|&length| length <= LARGEST_TEXT)?;
                printed.extend(source.take(length)?);
            }
            tag::SHOW => {
                if word != 0 {
                    return None;
                }
                printed.extend(line_of(&buffers.search).into_bytes());
            }
            tag::CLEAR_TABLE => {
                if word != 0 {
                    return None;
                }
                buffers.table.fill(0);
            }
            tag::STORE..tag::RUN => {
                let bytes = source.take(word as usize)?;
                buffers.read(tag, &numbers, bytes)?;
            }
            tag::RUN => {
                counts.runs += 1;
                if word != counts.runs {
                    return None;
                }
                buffers.store.fill(FRESH);
            }
            tag::END => {
                printed.extend(counts.total(differences).into_bytes());
                return (word == counts.runs).then_some((printed, differences));
            }
            _ => {
                if !buffers.step(tag, word, &numbers, subject)? {
                    differences += 1;
                }
                counts.step(tag);
            }
        }
    }
}
