//! What a run does, and who carries it out.

use super::places::{self, Place};
use crate::numbers::message;
use crate::{Answer, Search};

/// The arguments of a format besides the store.
#[derive(Clone, Copy, PartialEq, Eq, Debug)]
pub struct Format {
    pub stamp: u32,
    pub objects: u32,
    pub names: u32,
    pub blocks: u32,
    pub seconds: u32,
    pub nanoseconds: u32,
}

/// The arguments of a call besides the store.
#[derive(Clone, Copy, PartialEq, Eq, Debug)]
pub struct Call<'a> {
    pub bytes: &'a [u8],
    pub seconds: u32,
    pub nanoseconds: u32,
    pub verifier: u64,
    /// The length of the reply space.
    pub space: usize,
}

/// The arguments of a MOUNT call besides the store and the table.
#[derive(Clone, Copy, PartialEq, Eq, Debug)]
pub struct Mount<'a> {
    pub bytes: &'a [u8],
    pub host: u32,
    /// The length of the reply space.
    pub space: usize,
}

/// What a call answered, with the reply's bytes.
#[derive(Clone, PartialEq, Eq, Debug)]
pub struct Outcome {
    pub answer: Answer,
    pub reply: Vec<u8>,
}

/// The value of every store byte when a run starts.
pub const FRESH: u8 = 0xA5;
/// The value of every byte of the reply space before a call.
pub const SPARE: u8 = 0x5A;
/// The most bytes of one patch.
pub const MAX_PATCH: usize = 8192;

/// Carries out the steps of a run on a store buffer and a mount table of its
/// own.
pub trait Driver {
    /// A new run: the store buffer becomes `length` bytes of value 0xA5.
    fn start(&mut self, number: u32, length: usize, title: &str);
    fn format(&mut self, plan: Format) -> Answer;
    /// Overwrites bytes inside the store buffer.
    fn patch(&mut self, offset: usize, bytes: &[u8]);
    fn check(&mut self) -> Answer;
    fn call(&mut self, call: Call<'_>) -> Outcome;
    /// Converts an old image; the store buffer is the target.
    fn convert(&mut self, old: &[u8]) -> Answer;
    fn store(&self) -> &[u8];
    /// The mount table becomes these bytes. A new run leaves it as it is.
    fn set_table(&mut self, table: &[u8]);
    fn mount(&mut self, mount: Mount<'_>) -> Outcome;
    fn table(&self) -> &[u8];
    /// Searches a directory of the store, which passes its check.
    fn search(&mut self, directory: u32, name: &[u8]) -> Search {
        let search = crate::search(self.store(), directory, name);
        search.expect("the store passes its check")
    }
    /// Lets a replay print a text.
    fn print(&mut self, _text: &str) {}
    /// Lets a replay print the last search.
    fn print_search(&mut self) {}
    /// Counts one thing that a script is about to reach.
    fn note(&mut self, _group: &'static str, _label: &str) {}
}

/// The peer's own store buffer and mount table.
#[derive(Default)]
pub struct Peer {
    pub store: Vec<u8>,
    pub table: Vec<u8>,
    space: Vec<u8>,
}

/// Whether a call left the spare bytes of its reply space alone.
fn all_spare(bytes: &[u8]) -> bool {
    let (groups, rest) = bytes.as_chunks::<64>();
    groups.iter().all(|group| *group == [SPARE; 64]) && rest.iter().all(|&byte| byte == SPARE)
}

/// Whether a reply says GARBAGE_ARGS.
pub fn is_garbage(reply: &[u8]) -> bool {
    reply.len() == 24
        && reply[8..12] == message::ACCEPTED.to_be_bytes()
        && reply[20..] == message::GARBAGE_ARGS.to_be_bytes()
}

/// Fails unless number and offset are those of the place, and the reply says
/// GARBAGE_ARGS exactly where it is one of the arguments.
fn hold(outcome: &Outcome, wanted: Place, call: &[u8]) {
    let answer = outcome.answer;
    assert_eq!(
        (answer.number, answer.offset),
        (wanted.number, wanted.offset),
        "{call:02x?}"
    );
    let garbage = wanted.number == 0 && wanted.offset != 0;
    assert_eq!(is_garbage(&outcome.reply), garbage, "{call:02x?}");
}

impl Peer {
    pub fn start(&mut self, length: usize) {
        self.store.clear();
        self.store.resize(length, FRESH);
    }

    pub fn format(&mut self, plan: Format) -> Answer {
        crate::format(
            &mut self.store,
            plan.stamp,
            plan.objects,
            plan.names,
            plan.blocks,
            plan.seconds,
            plan.nanoseconds,
        )
    }

    pub fn patch(&mut self, offset: usize, bytes: &[u8]) {
        assert!(bytes.len() <= MAX_PATCH);
        self.store[offset..offset + bytes.len()].copy_from_slice(bytes);
    }

    pub fn convert(&mut self, old: &[u8]) -> Answer {
        crate::convert(old, &mut self.store)
    }

    /// The answer is held against the second definition of the place.
    pub fn call(&mut self, call: Call<'_>) -> Outcome {
        let wanted = places::of_call(&call, &self.store);
        self.space.clear();
        self.space.resize(call.space, SPARE);
        let answer = crate::call(
            call.bytes,
            &mut self.store,
            &mut self.space,
            call.seconds,
            call.nanoseconds,
            call.verifier,
        );
        let outcome = self.outcome(answer);
        hold(&outcome, wanted, call.bytes);
        outcome
    }

    pub fn set_table(&mut self, table: &[u8]) {
        self.table.clear();
        self.table.extend_from_slice(table);
    }

    /// The answer is held against the second definition of the place.
    pub fn mount(&mut self, mount: Mount<'_>) -> Outcome {
        let wanted = places::of_mount(&mount, &self.store, &self.table);
        self.space.clear();
        self.space.resize(mount.space, SPARE);
        let answer = crate::mount(
            mount.bytes,
            &self.store,
            &mut self.table,
            &mut self.space,
            mount.host,
        );
        let outcome = self.outcome(answer);
        hold(&outcome, wanted, mount.bytes);
        outcome
    }

    /// The answer with the reply that stands in the space.
    fn outcome(&self, answer: Answer) -> Outcome {
        let (reply, rest) = self.space.split_at(answer.length as usize);
        assert!(all_spare(rest));
        Outcome {
            answer,
            reply: reply.to_vec(),
        }
    }
}
