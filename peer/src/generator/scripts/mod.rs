//! Runs written out by hand: the examples of document 01, every refusal and
//! RPC outcome, every status of every procedure, full stores, spent
//! generations, damaged stores, the rules of EXCLUSIVE CREATE, conversions, pad
//! bytes that are not zero, RENAME over names that exist, files with several
//! names and calls that are broken at every place.

mod conversions;
mod damage;
mod exclusive;
mod image;
mod limits;
mod links;
mod messages;
mod padding;
pub mod places;
mod rename;
mod statuses;

use super::driver::Driver;
use super::encode::{Attributes, Request, Time};
use super::lane::*;
use crate::layout::Shape;

const EXAMPLES: &str = "Examples of document 01";
const ANSWERS: &str = "Ways to the answers 1 to 9";
const OUTCOMES: &str = "RPC outcomes brought about one by one";
const MALFORMED: &str = "Malformed arguments";
const BROKEN: &str = "Broken demands of the check";
const SOUND: &str = "Stores just inside the demands of the check";
const FULL: &str = "Full stores";
const CHANGED: &str = "Sound calls with one byte changed";

const STAMP: u32 = 0x5354_414D;
/// The verifier of an EXCLUSIVE CREATE.
const VERIFIER: [u8; 8] = *b"verifier";

/// Gives numbers to runs.
pub struct Runs<'d> {
    pub driver: &'d mut dyn Driver,
    pub next: u32,
}

impl Runs<'_> {
    pub fn take_number(&mut self) -> u32 {
        self.next += 1;
        self.next
    }

    /// A new run with a formatted store.
    pub fn open(&mut self, title: &str, counts: (usize, usize, usize)) -> Lane<'_> {
        let number = self.take_number();
        let (objects, names, blocks) = counts;
        let shape = Shape {
            objects,
            names,
            blocks,
        };
        Lane::open(self.driver, number, title, shape, STAMP)
    }

    /// A new run with a buffer for a store of this shape, not yet one.
    fn target(&mut self, title: &str, shape: Shape) -> Lane<'_> {
        let number = self.take_number();
        Lane::unformatted(self.driver, number, title, shape, STAMP)
    }
}

/// Every scripted run, one after the other.
pub fn all(runs: &mut Runs<'_>) {
    messages::examples(runs);
    messages::entry_answers(runs);
    messages::headers(runs);
    messages::formats(runs);
    messages::malformed_arguments(runs);
    statuses::handles_and_names(runs);
    statuses::attributes(runs);
    statuses::reading_and_writing(runs);
    statuses::making(runs);
    statuses::removing(runs);
    statuses::renaming(runs);
    statuses::listing(runs);
    statuses::file_system_numbers(runs);
    limits::full_stores(runs);
    limits::spent_generations(runs);
    damage::damaged(runs);
    damage::flags(runs);
    damage::old_images(runs);
    exclusive::making(runs);
    exclusive::names_that_exist(runs);
    exclusive::order(runs);
    exclusive::full_stores(runs);
    exclusive::forgetting(runs);
    exclusive::keeping(runs);
    conversions::whole(runs);
    conversions::refused(runs);
    padding::handles(runs);
    padding::names(runs);
    padding::other_names(runs);
    padding::data(runs);
    padding::headers(runs);
    padding::unread(runs);
    padding::later_faults(runs);
    padding::lent_buffers(runs);
    rename::files(runs);
    rename::directories(runs);
    rename::targets_that_stay(runs);
    rename::same_object(runs);
    rename::below_itself(runs);
    rename::order(runs);
    rename::full_stores(runs);
    rename::lowest_numbers(runs);
    rename::old_handles(runs);
    rename::spent_generations(runs);
    rename::clocks(runs);
    links::names(runs);
    links::sixteen(runs);
    links::removing(runs);
    links::renaming(runs);
    links::verifiers(runs);
    links::order(runs);
    links::room(runs);
    links::clocks(runs);
    links::full_store(runs);
    links::damaged(runs);
    links::conversions(runs);
    places::headers(runs);
    places::arguments(runs);
    places::bad_handles(runs);
    places::nowhere(runs);
    messages::changed_bytes(runs);
    limits::largest_store(runs);
    limits::scattered_blocks(runs);
}

/// A request of every served procedure with all optional parts.
fn full_requests(file: &[u8], root: &[u8]) -> Vec<Request> {
    let all = Attributes {
        mode: Some(0o644),
        uid: Some(1),
        gid: Some(2),
        size: Some(3),
        atime: Time::Client(4, 5),
        mtime: Time::Client(6, 7),
    };
    vec![
        getattr(file),
        setattr(file, all, Some((8, 9))),
        setattr(file, Attributes::default(), None),
        lookup(root, b"name"),
        access(file, 63),
        read(file, 1, 2),
        write(file, 1, b"data!"),
        guarded(root, b"new", all),
        unchecked(root, b"name", Attributes::default()),
        exclusive(root, b"name", VERIFIER),
        mkdir(root, b"d", Attributes::mode(0)),
        remove(root, b"n"),
        rmdir(root, b"nn"),
        rename(root, b"nnn", root, b"to"),
        link(file, root, b"link"),
        readdir(root, 0, 0, 4096),
        fsstat(file),
        fsinfo(file),
        pathconf(file),
        commit(file, 0, 0),
    ]
}
