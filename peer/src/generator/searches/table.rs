//! The table: searches whose outcome is worked out by hand, each printed with
//! what it is about.

use super::{check, rule, search, TABLE};
use crate::generator::encode::{Attributes, Request};
use crate::generator::lane::*;
use crate::generator::rules::{self, *};
use crate::generator::scripts::Runs;
use crate::generator::view::View;
use crate::numbers::Status;
use crate::Search;

/// Every run of the table.
pub fn all(runs: &mut Runs<'_>) {
    one_name(runs);
    first_bytes(runs);
    equal_prefixes(runs);
    lengths(runs);
    bag_tags(runs);
    directories(runs);
    free_records(runs);
    shortest_and_longest(runs);
    full_by_last_byte(runs);
    full_by_first_byte(runs);
    largest(runs);
    procedures(runs);
}

/// A store of the table.
struct Table<'d> {
    lane: Lane<'d>,
    title: &'static str,
}

impl<'d> Table<'d> {
    fn open(runs: &'d mut Runs<'_>, title: &'static str, counts: (usize, usize, usize)) -> Self {
        let lane = runs.open(title, counts);
        lane.driver.print(&format!("{title}\n"));
        Table { lane, title }
    }

    fn view(&self) -> View {
        View::of(self.lane.driver.store()).expect("the store passes its check")
    }

    /// Checks the store and prints what its directories hold.
    fn show(&mut self) {
        check(&mut self.lane);
        let view = self.view();
        for directory in view.live.iter().filter(|seen| seen.directory) {
            let names = view.names.iter();
            let own: Vec<String> = names
                .filter(|named| named.directory == directory.object)
                .enumerate()
                .map(|(at, named)| {
                    let name = String::from_utf8_lossy(&named.name);
                    let place = if at == 0 { "in record" } else { "in" };
                    format!("{name} {place} {}", named.record)
                })
                .collect();
            let list = if own.is_empty() {
                "no name".to_owned()
            } else {
                own.join(", ")
            };
            let line = format!("  directory {}: {list}\n", directory.object);
            assert!(line.len() <= 120, "{line}");
            self.lane.driver.print(&line);
        }
    }

    /// Checks the store and prints this instead of all its names.
    fn show_as(&mut self, text: &str) {
        check(&mut self.lane);
        self.lane.driver.print(&format!("  directory 0: {text}\n"));
    }

    /// One search with its outcome and the rules that it shows.
    fn case(
        &mut self,
        what: &str,
        (directory, name): (u32, &[u8]),
        (found, compared): (Option<usize>, u32),
        shows: &[&str],
    ) {
        let shown = match name.len() {
            0 => "an empty name".to_owned(),
            length @ 33.. => format!("a name of {length} bytes"),
            _ => String::from_utf8_lossy(name).into_owned(),
        };
        let text = format!("  {what}, {shown} in directory {directory}:");
        assert!(text.len() < 95, "{text}");
        self.lane.driver.print(&text);
        let before = self.lane.driver.store().to_vec();
        let result = search(&mut self.lane, directory, name);
        self.lane.driver.print_search();
        assert_eq!(result, Search { found, compared }, "{text}");
        assert!(before == self.lane.driver.store());
        rule(&mut self.lane, rules::NOTHING_CHANGES);
        for label in shows {
            rule(&mut self.lane, label);
        }
        self.lane.driver.note(TABLE, self.title);
        self.looked_up(directory, name, found);
    }

    /// LOOKUP answers by the search, if it comes to it.
    fn looked_up(&mut self, directory: u32, name: &[u8], found: Option<usize>) {
        let view = self.view();
        let number = directory as usize;
        let refused = name.is_empty() || name.len() > 32 || name == b"." || name == b"..";
        if refused || !view.is_directory(number) {
            return;
        }
        let handle = view.handle(number).unwrap_or_default().to_vec();
        let outcome = self.lane.send(&lookup(&handle, name));
        let status = status_of(&outcome.reply);
        match view.names.iter().find(|named| Some(named.record) == found) {
            Some(named) => {
                assert_eq!(status, Some(Status::OK.0));
                assert_eq!(view.handle(named.child), Some(&outcome.reply[32..44]));
                rule(&mut self.lane, LOOKUP_FINDS);
            }
            None => {
                assert_eq!(status, Some(Status::NOENT.0));
                rule(&mut self.lane, LOOKUP_MISSES);
            }
        }
    }

    /// Makes empty files, in ascending records.
    fn files(&mut self, directory: &[u8], names: &[&[u8]]) {
        for name in names {
            self.lane.create(directory, name, 0);
        }
    }
}

fn one_name(runs: &mut Runs<'_>) {
    let mut table = Table::open(runs, "One name:", (4, 4, 1));
    let root = table.lane.root();
    table.show();
    table.case("no name at all", (0, b"tag"), (None, 0), &[NO_RECORD]);
    table.files(&root, &[b"tag"]);
    table.show();
    table.case("one name, found", (0, b"tag"), (Some(0), 3), &[WHOLE_NAME]);
    let cut = [LENGTHS_FIRST, PREFIX];
    table.case("one name, a shorter one", (0, b"tags"), (None, 0), &cut);
    table.case("one name, a longer one", (0, b"ta"), (None, 0), &cut);
    table.case(
        "one name of another length",
        (0, b"bags"),
        (None, 0),
        &[LENGTHS_FIRST],
    );
    table.case(
        "differs in the first byte",
        (0, b"bag"),
        (None, 1),
        &[FIRST_BYTE],
    );
    table.case(
        "differs in the first byte and the last",
        (0, b"bar"),
        (None, 1),
        &[FIRST_BYTE],
    );
    table.case(
        "differs in the second byte",
        (0, b"tug"),
        (None, 2),
        &[INNER_BYTE],
    );
    table.case(
        "differs in the second byte and the last",
        (0, b"tub"),
        (None, 2),
        &[INNER_BYTE],
    );
    table.case(
        "differs in the last byte",
        (0, b"tab"),
        (None, 3),
        &[LAST_BYTE],
    );
    table.case("differs in a capital letter", (0, b"Tag"), (None, 1), &[]);
    table.case(
        "the name of the directory itself",
        (0, b"."),
        (None, 0),
        &[DOTS_NO_RECORD],
    );
    table.case(
        "the name of the directory above",
        (0, b".."),
        (None, 0),
        &[DOTS_NO_RECORD],
    );
    for dots in [&b"."[..], b".."] {
        let outcome = table.lane.done(&lookup(&root, dots));
        assert_eq!(outcome.reply[32..44], root);
        rule(&mut table.lane, DOTS_NOT_SEARCHED);
    }
    table.case("a name without a byte", (0, b""), (None, 0), &[EMPTY_NAME]);
    table.case(
        "a name that is too long",
        (0, &[b't'; 33]),
        (None, 0),
        &[LONG_NAME],
    );
    table.case(
        "a name that is far too long",
        (0, &[b't'; 300]),
        (None, 0),
        &[LONG_NAME],
    );
    table.case(
        "the number of a file",
        (1, b"tag"),
        (None, 0),
        &[FILE_NUMBER],
    );
    table.case(
        "the number of a free object",
        (2, b"tag"),
        (None, 0),
        &[FREE_NUMBER],
    );
    table.case(
        "a number one past the objects",
        (4, b"tag"),
        (None, 0),
        &[BEYOND],
    );
    table.case(
        "the largest number",
        (u32::MAX, b"tag"),
        (None, 0),
        &[BEYOND],
    );
}

fn first_bytes(runs: &mut Runs<'_>) {
    let title = "Names of one length without a common first byte:";
    let mut table = Table::open(runs, title, (8, 8, 0));
    let root = table.lane.root();
    table.files(&root, &[b"ape", b"bee", b"cat", b"dog", b"elk"]);
    table.show();
    table.case(
        "match in the first record",
        (0, b"ape"),
        (Some(0), 3),
        &[AFTER_MATCH],
    );
    let middle = [BEFORE_MATCH, AFTER_MATCH];
    table.case(
        "match in a middle record",
        (0, b"cat"),
        (Some(2), 5),
        &middle,
    );
    table.case(
        "match in the last record",
        (0, b"elk"),
        (Some(4), 7),
        &[BEFORE_MATCH],
    );
    table.case(
        "no match, no first byte in common",
        (0, b"fox"),
        (None, 5),
        &[NO_MATCH],
    );
    table.case(
        "no match, one first byte in common",
        (0, b"cow"),
        (None, 6),
        &[NO_MATCH, INNER_BYTE],
    );
    table.case(
        "no match, two bytes in common",
        (0, b"cab"),
        (None, 7),
        &[NO_MATCH, LAST_BYTE],
    );
    table.case(
        "no name of that length",
        (0, b"bees"),
        (None, 0),
        &[LENGTHS_FIRST],
    );
}

fn equal_prefixes(runs: &mut Runs<'_>) {
    let mut table = Table::open(runs, "Names with an equal prefix:", (8, 8, 0));
    let root = table.lane.root();
    let names: [&[u8]; 5] = [b"tag-001", b"tag-002", b"tag-003", b"tag-004", b"tag-005"];
    table.files(&root, &names);
    table.show();
    table.case(
        "match in the first record",
        (0, names[0]),
        (Some(0), 7),
        &[AFTER_MATCH],
    );
    let middle = [BEFORE_MATCH, AFTER_MATCH];
    table.case(
        "match in a middle record",
        (0, names[2]),
        (Some(2), 21),
        &middle,
    );
    table.case(
        "match in the last record",
        (0, names[4]),
        (Some(4), 35),
        &[BEFORE_MATCH],
    );
    table.case(
        "differs in the last byte",
        (0, b"tag-009"),
        (None, 35),
        &[NO_MATCH, LAST_BYTE],
    );
    table.case(
        "differs in the byte before the last",
        (0, b"tag-015"),
        (None, 30),
        &[INNER_BYTE],
    );
    table.case(
        "differs in the first byte",
        (0, b"bag-001"),
        (None, 5),
        &[FIRST_BYTE],
    );
    table.case("a byte shorter", (0, b"tag-00"), (None, 0), &[PREFIX]);
    table.case("a byte longer", (0, b"tag-0011"), (None, 0), &[PREFIX]);
}

fn lengths(runs: &mut Runs<'_>) {
    let mut table = Table::open(runs, "Names that begin with another:", (8, 8, 0));
    let root = table.lane.root();
    table.files(&root, &[b"tagged", b"tag", b"tagg", b"ta"]);
    table.show();
    table.case(
        "the longest of them",
        (0, b"tagged"),
        (Some(0), 6),
        &[WHOLE_NAME],
    );
    let prefix = [PREFIX, LENGTHS_FIRST];
    table.case(
        "a prefix of the longest",
        (0, b"tag"),
        (Some(1), 3),
        &prefix,
    );
    table.case("a longer prefix", (0, b"tagg"), (Some(2), 4), &prefix);
    table.case("the shortest prefix", (0, b"ta"), (Some(3), 2), &prefix);
    table.case(
        "a prefix that is not there",
        (0, b"tagge"),
        (None, 0),
        &prefix,
    );
    table.case(
        "as long as the longest",
        (0, b"tagger"),
        (None, 6),
        &[LAST_BYTE],
    );
}

fn bag_tags(runs: &mut Runs<'_>) {
    let mut table = Table::open(runs, "Bag tags with and without a leading zero:", (8, 8, 0));
    let root = table.lane.root();
    table.files(&root, &[b"0123456789", b"123456789"]);
    table.show();
    let zero = [LEADING_ZERO, WHOLE_NAME];
    table.case("with the zero", (0, b"0123456789"), (Some(0), 10), &zero);
    table.case("without it", (0, b"123456789"), (Some(1), 9), &zero);
    table.case(
        "one zero more",
        (0, b"00123456789"),
        (None, 0),
        &[LEADING_ZERO],
    );
    table.case(
        "zero at the end",
        (0, b"1234567890"),
        (None, 1),
        &[FIRST_BYTE],
    );
    table.case(
        "differs in the last digit",
        (0, b"0123456788"),
        (None, 10),
        &[LAST_BYTE],
    );
    table.case(
        "differs in the last digit",
        (0, b"123456780"),
        (None, 9),
        &[LAST_BYTE],
    );
}

fn directories(runs: &mut Runs<'_>) {
    let mut table = Table::open(runs, "Records of other directories between:", (12, 12, 0));
    let root = table.lane.root();
    let east = table.lane.mkdir(&root, b"east");
    let west = table.lane.mkdir(&root, b"west");
    let empty = table.lane.mkdir(&root, b"none");
    table.files(&east, &[b"0123456789"]);
    table.files(&west, &[b"0123456789"]);
    table.files(&east, &[b"0123456780"]);
    table.files(&root, &[b"0123456789"]);
    table.files(&west, &[b"9876543210", b"0123456780"]);
    table.show();
    let tag = b"0123456789";
    let between = [OTHER_DIRECTORIES, SAME_NAME];
    table.case(
        "match in the first record",
        (1, tag),
        (Some(3), 10),
        &between,
    );
    table.case(
        "match in the first record",
        (2, tag),
        (Some(4), 10),
        &between,
    );
    table.case(
        "match in the last record",
        (0, tag),
        (Some(6), 10),
        &between,
    );
    let tag = b"0123456780";
    table.case(
        "match in the last record",
        (1, tag),
        (Some(5), 20),
        &between,
    );
    table.case(
        "match in the last record",
        (2, tag),
        (Some(8), 21),
        &between,
    );
    table.case("only in other directories", (0, tag), (None, 10), &between);
    table.case("only in other directories", (3, tag), (None, 0), &between);
    let tag = b"9876543210";
    table.case("only in another directory", (1, tag), (None, 2), &between);
    table.case(
        "match in a middle record",
        (2, tag),
        (Some(7), 11),
        &between,
    );
    table.case("the name of a directory", (0, b"west"), (Some(1), 5), &[]);
    table.case(
        "not in that directory itself",
        (2, b"west"),
        (None, 0),
        &[SAME_NAME],
    );
    table.lane.done(&rmdir(&root, b"none"));
    check(&mut table.lane);
    table.case(
        "the number of a directory that is gone",
        (3, tag),
        (None, 0),
        &[FREE_NUMBER],
    );
    let outcome = table.lane.send(&lookup(&empty, tag));
    assert_eq!(status_of(&outcome.reply), Some(Status::STALE.0));
}

fn free_records(runs: &mut Runs<'_>) {
    let mut table = Table::open(runs, "Free records between:", (10, 10, 0));
    let root = table.lane.root();
    let cart = table.lane.mkdir(&root, b"carts");
    table.files(&root, &[b"tag-1", b"tag-2", b"tag-3", b"tag-4", b"tag-5"]);
    table.show();
    table.case(
        "nothing free yet",
        (0, b"tag-5"),
        (Some(5), 26),
        &[BEFORE_MATCH],
    );
    table.lane.done(&remove(&root, b"tag-1"));
    table.lane.done(&remove(&root, b"tag-3"));
    table.show();
    let free = [FREE_RECORDS];
    table.case(
        "match behind two free records",
        (0, b"tag-5"),
        (Some(5), 16),
        &free,
    );
    table.case(
        "match behind one free record",
        (0, b"tag-2"),
        (Some(2), 6),
        &free,
    );
    table.case(
        "a name that was removed",
        (0, b"tag-1"),
        (None, 16),
        &[FREE_RECORDS, NO_MATCH],
    );
    table.case("a name without a byte", (0, b""), (None, 0), &[EMPTY_NAME]);
    table.lane.done(&rename(&root, b"tag-5", &root, b"tag-2"));
    table.show();
    table.case(
        "renamed over a name, whose record is free",
        (0, b"tag-2"),
        (Some(5), 11),
        &[FREED_TARGET],
    );
    table.case(
        "the name from before",
        (0, b"tag-5"),
        (None, 11),
        &[FREED_TARGET],
    );
    table.lane.done(&rename(&root, b"tag-4", &cart, b"tag-2"));
    table.show();
    table.case(
        "moved to another directory",
        (1, b"tag-2"),
        (Some(4), 5),
        &[MOVED_RECORD, SAME_NAME],
    );
    table.case(
        "the same name where it was",
        (0, b"tag-2"),
        (Some(5), 6),
        &[MOVED_RECORD],
    );
    table.case(
        "moved to another directory",
        (0, b"tag-4"),
        (None, 6),
        &[MOVED_RECORD],
    );
    table.files(&root, &[b"tag-9"]);
    table.show();
    table.case(
        "match in a record used again",
        (0, b"tag-9"),
        (Some(1), 6),
        &[USED_AGAIN],
    );
    table.case(
        "match behind it",
        (0, b"tag-2"),
        (Some(5), 11),
        &[USED_AGAIN],
    );
}

fn shortest_and_longest(runs: &mut Runs<'_>) {
    let mut table = Table::open(runs, "Names of 1 byte and of 32 bytes:", (8, 8, 0));
    let root = table.lane.root();
    let long = b"abcdefghijklmnopqrstuvwxyz012345";
    let other = b"abcdefghijklmnopqrstuvwxyz012346";
    table.files(&root, &[b"a", long, b"b", other]);
    table.show();
    table.case(
        "a name of 1 byte",
        (0, b"a"),
        (Some(0), 1),
        &[ONE_BYTE, AFTER_MATCH],
    );
    table.case(
        "a name of 1 byte",
        (0, b"b"),
        (Some(2), 2),
        &[ONE_BYTE, BEFORE_MATCH],
    );
    table.case(
        "a name of 1 byte",
        (0, b"c"),
        (None, 2),
        &[ONE_BYTE, NO_MATCH],
    );
    table.case(
        "a name of 32 bytes",
        (0, long),
        (Some(1), 32),
        &[LONGEST, AFTER_MATCH],
    );
    table.case(
        "a name of 32 bytes",
        (0, other),
        (Some(3), 64),
        &[LONGEST, BEFORE_MATCH],
    );
    let mut name = *long;
    name[31] = b'!';
    table.case(
        "differs in the last of 32 bytes",
        (0, &name),
        (None, 64),
        &[LONGEST, LAST_BYTE],
    );
    name[15] = b'!';
    table.case(
        "differs in the 16th of 32 bytes",
        (0, &name),
        (None, 32),
        &[LONGEST, INNER_BYTE],
    );
    name[0] = b'!';
    table.case(
        "differs in the first of 32 bytes",
        (0, &name),
        (None, 2),
        &[LONGEST, FIRST_BYTE],
    );
    table.case("a byte shorter", (0, &long[..31]), (None, 0), &[PREFIX]);
    let longer = [&long[..], b"6"].concat();
    table.case(
        "a byte longer",
        (0, &longer),
        (None, 0),
        &[LONG_NAME, PREFIX],
    );
}

/// A full store's names of 32 bytes that differ in one byte.
fn numbered(number: usize, at: usize) -> [u8; 32] {
    let mut name = [b'x'; 32];
    name[at] = b'0' + number as u8;
    name
}

fn full_by_last_byte(runs: &mut Runs<'_>) {
    let title = "A full store, without a free object or name record:";
    let mut table = Table::open(runs, title, (64, 63, 0));
    let root = table.lane.root();
    for number in 0..63 {
        table.files(&root, &[&numbered(number, 31)]);
    }
    table.show_as("63 names of 32 bytes that differ in the last byte only");
    let full = [FULL_STORE, LONGEST];
    let name = |number| numbered(number, 31);
    table.case(
        "match in the first record",
        (0, &name(0)),
        (Some(0), 32),
        &full,
    );
    table.case(
        "match in the 32nd record",
        (0, &name(31)),
        (Some(31), 1024),
        &full,
    );
    table.case(
        "match in the last record",
        (0, &name(62)),
        (Some(62), 2016),
        &full,
    );
    table.case(
        "differs in the last byte",
        (0, &name(63)),
        (None, 2016),
        &full,
    );
    table.case(
        "differs in the first byte",
        (0, &[b'y'; 32]),
        (None, 63),
        &full,
    );
    table.case("no name of that length", (0, &[b'x'; 31]), (None, 0), &full);
}

fn full_by_first_byte(runs: &mut Runs<'_>) {
    let title = "A store without a free object:";
    let mut table = Table::open(runs, title, (64, 128, 0));
    let root = table.lane.root();
    for number in 0..63 {
        table.files(&root, &[&numbered(number, 0)]);
    }
    table.show_as("63 names of 32 bytes that differ in the first byte only");
    let name = |number| numbered(number, 0);
    table.case(
        "match in the first record",
        (0, &name(0)),
        (Some(0), 32),
        &[],
    );
    table.case(
        "match in the 32nd record",
        (0, &name(31)),
        (Some(31), 63),
        &[],
    );
    table.case(
        "match in the last record",
        (0, &name(62)),
        (Some(62), 94),
        &[BEFORE_MATCH],
    );
    table.case(
        "differs in the first byte",
        (0, &name(63)),
        (None, 63),
        &[NO_MATCH],
    );
    table.case(
        "differs in the first byte",
        (0, &[b'x'; 32]),
        (None, 63),
        &[FIRST_BYTE],
    );
}

fn largest(runs: &mut Runs<'_>) {
    let mut table = Table::open(runs, "The largest store:", (64, 128, 1024));
    let root = table.lane.root();
    table.files(&root, &[b"tag-1", b"tag-2"]);
    table.show();
    table.case(
        "match in the last record",
        (0, b"tag-2"),
        (Some(1), 10),
        &[LARGEST_STORE],
    );
    table.case(
        "differs in the last byte",
        (0, b"tag-3"),
        (None, 10),
        &[LARGEST_STORE],
    );
}

/// The other procedures go by what the search finds.
fn procedures(runs: &mut Runs<'_>) {
    let title = "What the other procedures find:";
    let mut table = Table::open(runs, title, (8, 8, 0));
    let root = table.lane.root();
    table.files(&root, &[b"tag-1"]);
    table.lane.mkdir(&root, b"box-1");
    table.show();
    let refused = |table: &mut Table<'_>, request: &Request, status: Status| {
        assert_eq!(table.lane.status(request), Some(status.0), "{request:?}");
    };
    let nothing = Attributes::default();
    for there in [&b"tag-1"[..], b"box-1"] {
        refused(&mut table, &guarded(&root, there, nothing), Status::EXIST);
        refused(&mut table, &mkdir(&root, there, nothing), Status::EXIST);
    }
    for near in [&b"tag-2"[..], b"tag-", b"tag-11", b"ag-1", b"box-2"] {
        refused(&mut table, &remove(&root, near), Status::NOENT);
        refused(&mut table, &rmdir(&root, near), Status::NOENT);
        let moved = rename(&root, near, &root, b"tag-3");
        refused(&mut table, &moved, Status::NOENT);
    }
    table.lane.done(&guarded(&root, b"tag-2", nothing));
    table.lane.done(&mkdir(&root, b"box-2", nothing));
    table.show();
    table.case(
        "made by CREATE",
        (0, b"tag-2"),
        (Some(2), 11),
        &[CREATE_FINDS],
    );
    table.case(
        "made by MKDIR",
        (0, b"box-2"),
        (Some(3), 12),
        &[MKDIR_FINDS],
    );
    table.lane.done(&remove(&root, b"tag-1"));
    table.lane.done(&rmdir(&root, b"box-1"));
    table.lane.done(&rename(&root, b"tag-2", &root, b"tag-3"));
    table.show();
    table.case("gone by REMOVE", (0, b"tag-1"), (None, 6), &[REMOVE_FINDS]);
    table.case("gone by RMDIR", (0, b"box-1"), (None, 6), &[RMDIR_FINDS]);
    table.case("gone by RENAME", (0, b"tag-2"), (None, 6), &[RENAME_FINDS]);
    table.case(
        "there by RENAME",
        (0, b"tag-3"),
        (Some(2), 5),
        &[RENAME_FINDS],
    );
}
