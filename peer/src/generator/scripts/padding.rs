//! Pad bytes of calls that are not zero, field by field, and missing ones.

use super::*;
use crate::generator::driver::{Call, Outcome, Peer};
use crate::generator::encode::{handle, opaque, Attributes, Field, Header, Request};
use crate::generator::old_images::old_image;
use crate::generator::padding::{leftovers, Padded, ARGUMENTS};
use crate::generator::random::Random;
use crate::generator::rules::{self, End};
use crate::layout::{name_field, word, MAX_NAME};
use crate::numbers::{message, procedure, Status};

/// Pad bytes, one kind after the other.
struct Pads {
    random: Random,
    turn: usize,
}

impl Pads {
    fn new() -> Pads {
        Pads {
            random: Random::new(2),
            turn: 0,
        }
    }

    fn next(&mut self, count: usize) -> Vec<u8> {
        self.turn += 1;
        let mut kinds = leftovers(count, &mut self.random);
        kinds.swap_remove(self.turn % kinds.len())
    }

    /// Three kinds; those for 1, 2 and 3 bytes are all nine together.
    fn three(&mut self, count: usize) -> [Vec<u8>; 3] {
        let kinds = leftovers(count, &mut self.random);
        let numbers = [[0, 1, 2], [3, 4, 7], [5, 6, 7]][count - 1];
        numbers.map(|number| kinds[number].clone())
    }

    /// The call with one kind after the other at its padded places.
    fn everywhere(&mut self, call: &Padded) -> Padded {
        let mut dirty = call.clone();
        for place in call.padded() {
            let pads = self.next(call.count(place));
            dirty.fill(place, &pads);
        }
        dirty
    }
}

/// The call of a request with the next xid.
fn padded(lane: &mut Lane<'_>, request: &Request) -> Padded {
    Padded::of(request, lane.next_xid())
}

fn procedure_of(call: &Padded) -> u32 {
    word(&call.bytes, 20)
}

/// The accept status of a reply that is accepted.
fn accepted(outcome: &Outcome) -> Option<u32> {
    (outcome.answer.number == 0 && word(&outcome.reply, 8) == message::ACCEPTED)
        .then(|| word(&outcome.reply, 20))
}

fn is_garbage(outcome: &Outcome) -> bool {
    accepted(outcome) == Some(message::GARBAGE_ARGS) && outcome.reply.len() == 24
}

/// Sends the call and sees that it leaves what zeros as pad bytes would leave:
/// the answer, the reply and the store.
fn alike(lane: &mut Lane<'_>, call: &Padded) -> Outcome {
    let mut zeros = call.clone();
    zeros.clear();
    let mut twin = Peer::default();
    twin.store = lane.driver.store().to_vec();
    let outcome = lane.raw(&call.bytes);
    let wanted = twin.call(Call {
        bytes: &zeros.bytes,
        seconds: lane.seconds,
        nanoseconds: lane.nanoseconds,
        verifier: lane.verifier,
        space: lane.space,
    });
    assert_eq!(outcome, wanted);
    assert!(lane.driver.store() == twin.store);
    outcome
}

/// Sends the call, which has this status with zeros as pad bytes too.
fn expect(lane: &mut Lane<'_>, call: &Padded, status: Status) -> Outcome {
    let outcome = alike(lane, call);
    assert_eq!(status_of(&outcome.reply), Some(status.0));
    let end = if status == Status::OK {
        End::Done
    } else {
        End::Refused
    };
    for place in call.padded() {
        if call.bytes[call.places[place].clone()]
            .iter()
            .any(|&byte| byte != 0)
        {
            lane.rule(&rules::padding(
                procedure_of(call),
                place,
                call.count(place),
                end,
            ));
        }
    }
    outcome
}

/// Sends the call with every number of pad bytes missing at a place.
fn cut(lane: &mut Lane<'_>, call: &Padded, place: usize) {
    let count = call.count(place);
    for missing in 1..=count {
        let before = lane.driver.store().to_vec();
        let outcome = lane.raw(call.cut(place, missing));
        if place < ARGUMENTS {
            assert_eq!(outcome.answer.number, 8);
        } else {
            assert!(is_garbage(&outcome));
        }
        assert!(lane.driver.store() == before);
    }
    lane.rule(&rules::padding(procedure_of(call), place, count, End::Cut));
}

/// Sends a request that succeeds, with pad bytes at every place.
fn done(lane: &mut Lane<'_>, pads: &mut Pads, request: &Request) -> Outcome {
    let call = padded(lane, request);
    let dirty = pads.everywhere(&call);
    expect(lane, &dirty, Status::OK)
}

/// Sends a call that is refused, with pad bytes of three kinds at this place,
/// and cut there.
fn refused(lane: &mut Lane<'_>, pads: &mut Pads, call: &Padded, place: usize, status: Status) {
    let mut dirty = call.clone();
    for kind in pads.three(call.count(place)) {
        dirty.fill(place, &kind);
        expect(lane, &dirty, status);
    }
    cut(lane, &dirty, place);
}

/// Handles of a wrong length, in each place for a handle of each procedure.
pub(super) fn handles(runs: &mut Runs<'_>) {
    let mut lane = runs.open("padding: handles", (3, 3, 1));
    let pads = &mut Pads::new();
    let root = lane.root();
    lane.create(&root, b"name", 0);
    let at = lane.object_at(1) + 4;
    lane.patch_word(at, 0x0A0B_0C0D);
    let file = handle(STAMP, 1, 0x0A0B_0C0D);
    let long = [&file[..], &[0; 52]].concat();
    let mut turn = 0;
    for request in full_requests(&file, &root) {
        let fields = request.fields();
        let mut place = ARGUMENTS;
        for (index, field) in fields.iter().enumerate() {
            if matches!(field, Field::Text(_)) {
                place += 1;
            }
            let Field::Handle(_) = field else { continue };
            for count in 1..=3 {
                let lengths = [12, 16, 4, 64].map(|length| length - count);
                let mut fields = fields.clone();
                fields[index] = Field::Handle(long[..lengths[turn % 4]].to_vec());
                turn += 1;
                let header = Header::new(lane.next_xid(), request.procedure());
                let call = Padded::new(&header, &fields);
                refused(&mut lane, pads, &call, place, Status::BADHANDLE);
            }
            place += 1;
        }
    }
    // A handle that is cut short, with its own bytes as pad bytes.
    lane.done(&getattr(&file));
    for length in 9..12 {
        for request in [getattr(&file[..length]), write(&file[..length], 0, b"data")] {
            let mut call = padded(&mut lane, &request);
            call.fill(ARGUMENTS, &file[length..]);
            expect(&mut lane, &call, Status::BADHANDLE);
            lane.rule(rules::PADS_COMPLETE_HANDLE);
        }
    }
    for length in [65, 66, 67] {
        for request in [getattr(&vec![7; length]), lookup(&vec![7; length], b"name")] {
            let call = padded(&mut lane, &request);
            let dirty = pads.everywhere(&call);
            assert!(is_garbage(&alike(&mut lane, &dirty)));
            lane.rule(rules::PADS_LONG_HANDLE);
        }
    }
}

/// Sees that a name record holds this name and zeros.
fn stored(lane: &mut Lane<'_>, record: usize, name: &[u8]) {
    let at = lane.name_at(record);
    let store = lane.driver.store();
    assert_eq!(word(store, at + name_field::LENGTH) as usize, name.len());
    let mut text = name.to_vec();
    text.resize(MAX_NAME, 0);
    assert_eq!(store[at + name_field::TEXT..][..MAX_NAME], text);
    lane.rule(rules::PADS_STORED_NAME);
}

/// Sees that a listing of the root has this name, with zeros behind it.
fn listed(lane: &mut Lane<'_>, name: &[u8]) {
    let mut entry = Vec::new();
    opaque(&mut entry, name);
    let root = lane.root();
    let outcome = lane.done(&readdir(&root, 2, 0, 4096));
    assert!(outcome.reply.windows(entry.len()).any(|part| part == entry));
    lane.rule(rules::PADS_LISTED);
}

/// Names with 1 to 3 pad bytes: every call that succeeds, and refusals.
pub(super) fn names(runs: &mut Runs<'_>) {
    let none = Attributes::default();
    let mut lane = runs.open("padding: names", (8, 8, 4));
    let pads = &mut Pads::new();
    let root = lane.root();
    let full = lane.mkdir(&root, b"full");
    let inside = lane.create(&full, b"inside", 0);
    for length in 1..=3 {
        let [first, second, third, directory, other] =
            [b'a', b'b', b'c', b'd', b'o'].map(|byte| vec![byte; length]);
        let sized = Attributes::size(9);
        for request in [
            guarded(&root, &first, none),
            unchecked(&root, &second, none),
            unchecked(&root, &second, sized),
            exclusive(&root, &third, VERIFIER),
            exclusive(&root, &third, VERIFIER),
            mkdir(&root, &directory, none),
            lookup(&root, &third),
        ] {
            done(&mut lane, pads, &request);
        }
        lane.done(&lookup(&root, &first));
        for (record, name) in [&first, &second, &third, &directory]
            .into_iter()
            .enumerate()
        {
            stored(&mut lane, 2 + record, name);
        }
        listed(&mut lane, &second);
        for (request, status) in [
            (lookup(&root, &other), Status::NOENT),
            (guarded(&root, &first, none), Status::EXIST),
            (unchecked(&root, &directory, none), Status::EXIST),
            (exclusive(&root, &second, VERIFIER), Status::EXIST),
            (mkdir(&root, &first, none), Status::EXIST),
            (remove(&root, &other), Status::NOENT),
            (rmdir(&root, &first), Status::NOTDIR),
            (rename(&root, &other, &full, &first), Status::NOENT),
            (link(&inside, &root, &first), Status::EXIST),
        ] {
            let call = padded(&mut lane, &request);
            for place in call.padded() {
                refused(&mut lane, pads, &call, place, status);
            }
        }
        for request in [
            link(&inside, &full, &other),
            remove(&full, &other),
            rename(&root, &first, &root, &other),
            rename(&root, &directory, &full, &first),
            rename(&full, &first, &root, &directory),
            rmdir(&root, &directory),
            remove(&root, &other),
            rename(&root, &second, &root, &third),
            rename(&root, &third, &root, &third),
            remove(&root, &third),
        ] {
            done(&mut lane, pads, &request);
        }
    }
    // Names that nearly fill their record, then a short one in its place.
    for length in 29..=31 {
        let [first, other] = [b'a', b'o'].map(|byte| vec![byte; length]);
        done(&mut lane, pads, &guarded(&root, &first, none));
        stored(&mut lane, 2, &first);
        done(&mut lane, pads, &lookup(&root, &first));
        done(&mut lane, pads, &rename(&root, &first, &root, &other));
        stored(&mut lane, 2, &other);
        done(&mut lane, pads, &rename(&root, &other, &root, b"x"));
        stored(&mut lane, 2, b"x");
        done(&mut lane, pads, &remove(&root, b"x"));
    }
    for length in [33, 34, 35] {
        let call = padded(&mut lane, &lookup(&root, &vec![b'n'; length]));
        let dirty = pads.everywhere(&call);
        expect(&mut lane, &dirty, Status::NAMETOOLONG);
    }
    lane.driver.check();
}

/// Pad bytes that would make another name, or other dots.
pub(super) fn other_names(runs: &mut Runs<'_>) {
    let mut lane = runs.open("padding: the rest of another name", (6, 6, 0));
    let root = lane.root();
    let two = lane.create(&root, b"ab", 0);
    let three = lane.create(&root, b"abc", 0);
    lane.create(&root, b"abcd", 0);
    lane.create(&root, b"...a", 0);
    let none: &[u8] = &[];
    for (name, rest, found, rule) in [
        (&b"ab"[..], &b"cd"[..], &two[..], rules::PADS_COMPLETE_NAME),
        (b"ab", b"c\0", &two, rules::PADS_COMPLETE_NAME),
        (b"abc", b"d", &three, rules::PADS_COMPLETE_NAME),
        (b"a", b"bcd", none, rules::PADS_COMPLETE_NAME),
        (b"a", b"b\0\0", none, rules::PADS_COMPLETE_NAME),
        (b"a", b"/..", none, rules::PADS_COMPLETE_NAME),
        (b"...", b"a", none, rules::PADS_COMPLETE_NAME),
        (b".", b".\0\0", &root, rules::PADS_DOTS),
        (b".", b"..a", &root, rules::PADS_DOTS),
        (b"..", b".a", &root, rules::PADS_DOTS),
        (b"..", b"\0/", &root, rules::PADS_DOTS),
    ] {
        let mut call = padded(&mut lane, &lookup(&root, name));
        call.fill(ARGUMENTS + 1, rest);
        if found.is_empty() {
            expect(&mut lane, &call, Status::NOENT);
        } else {
            let outcome = expect(&mut lane, &call, Status::OK);
            assert_eq!(outcome.reply[32..44], *found);
        }
        lane.rule(rule);
    }
    for (request, status) in [
        (mkdir(&root, b".", Attributes::default()), Status::EXIST),
        (exclusive(&root, b"..", VERIFIER), Status::EXIST),
        (remove(&root, b".."), Status::ACCES),
        (rmdir(&root, b"."), Status::INVAL),
        (rename(&root, b"abc", &root, b".."), Status::INVAL),
    ] {
        let call = padded(&mut lane, &request);
        let dirty = Pads::new().everywhere(&call);
        expect(&mut lane, &dirty, status);
        lane.rule(rules::PADS_DOTS);
    }
}

/// Reads the file from its start: these bytes, and zeros as padding.
fn reads(lane: &mut Lane<'_>, file: &[u8], bytes: &[u8], rule: &str) {
    let outcome = lane.done(&read(file, 0, 4096));
    let mut wanted = Vec::new();
    opaque(&mut wanted, bytes);
    assert!(outcome.reply.ends_with(&wanted));
    lane.rule(rule);
}

/// Data with 1 to 3 pad bytes.
pub(super) fn data(runs: &mut Runs<'_>) {
    let mut lane = runs.open("padding: data", (3, 3, 10));
    let pads = &mut Pads::new();
    let root = lane.root();
    let file = lane.create(&root, b"file", 0);
    let mut bytes = Vec::new();
    for (length, growth) in [(1, 3), (2, 2), (3, 1), (5, 6), (486, 3), (3, 9)] {
        let end = bytes.len() as u64;
        done(&mut lane, pads, &write(&file, end, &vec![0xDA; length]));
        bytes.resize(bytes.len() + length, 0xDA);
        reads(&mut lane, &file, &bytes, rules::PADS_READ);
        bytes.resize(bytes.len() + growth, 0);
        let size = Attributes::size(bytes.len() as u64);
        lane.done(&setattr(&file, size, None));
        reads(&mut lane, &file, &bytes, rules::PADS_GROWTH);
    }
    for (at, length) in [(0, 3), (40, 2), (101, 5)] {
        done(
            &mut lane,
            pads,
            &write(&file, at as u64, &vec![0xDB; length]),
        );
        bytes[at..at + length].fill(0xDB);
        reads(&mut lane, &file, &bytes, rules::PADS_BEHIND);
    }
    for data in [&b"d"[..], b"da", b"dat"] {
        // The pad bytes are not counted.
        let whole = data.len().next_multiple_of(4) as u32;
        let call = padded(&mut lane, &write_as(&file, 0, whole, 2, data));
        refused(&mut lane, pads, &call, ARGUMENTS + 1, Status::INVAL);
        for (request, status) in [
            (write(&file, 8192, data), Status::FBIG),
            (write(&root, 0, data), Status::INVAL),
            (write(&handle(STAMP, 2, 0), 0, data), Status::STALE),
        ] {
            let call = padded(&mut lane, &request);
            let dirty = pads.everywhere(&call);
            expect(&mut lane, &dirty, status);
        }
    }
    // Of more than 4,096 bytes the first are written, up to the end of a file.
    done(&mut lane, pads, &write(&file, 500, &vec![0xDC; 4097]));
    let other = lane.create(&root, b"other", 0);
    let call = padded(&mut lane, &write(&other, 510, b"dat"));
    let dirty = pads.everywhere(&call);
    expect(&mut lane, &dirty, Status::NOSPC);
    lane.driver.check();
}

/// A header whose credential and verifier have so many bytes.
fn header(lane: &mut Lane<'_>, number: u32, credential: usize, verifier: usize) -> Header {
    Header {
        credential: (1, vec![0xC1; credential]),
        verifier: (6, vec![0xC2; verifier]),
        ..Header::new(lane.next_xid(), number)
    }
}

/// Credentials and verifiers with 1 to 3 pad bytes.
pub(super) fn headers(runs: &mut Runs<'_>) {
    let mut lane = runs.open("padding: credentials and verifiers", (3, 3, 2));
    let pads = &mut Pads::new();
    let root = lane.root();
    let file = lane.create(&root, b"name", 0);
    for length in [1, 2, 3, 5, 397, 398, 399] {
        for (credential, verifier) in [(length, 0), (0, length)] {
            for (request, status) in [
                (getattr(&file), Status::OK),
                (getattr(&file[..8]), Status::BADHANDLE),
            ] {
                if length > 5 && status != Status::OK {
                    continue;
                }
                let header = header(&mut lane, request.procedure(), credential, verifier);
                let call = Padded::new(&header, &request.fields());
                let dirty = pads.everywhere(&call);
                expect(&mut lane, &dirty, status);
                if status == Status::OK {
                    cut(&mut lane, &dirty, call.padded()[0]);
                }
            }
        }
    }
    for (credential, verifier) in [(1, 3), (2, 2), (3, 1), (5, 5), (400, 399), (397, 400)] {
        let header = header(&mut lane, procedure::NULL, credential, verifier);
        let dirty = pads.everywhere(&Padded::new(&header, &[]));
        let outcome = alike(&mut lane, &dirty);
        assert_eq!(accepted(&outcome), Some(message::SUCCESS));
    }
    // At every place of one call.
    let none = Attributes::default();
    for (request, status) in [
        (write(&file, 0, b"data!"), Status::OK),
        (guarded(&root, b"new", none), Status::OK),
        (rename(&root, b"new", &root, b"newer"), Status::OK),
        (write(&file[..9], 0, b"data!"), Status::BADHANDLE),
        (exclusive(&root[..10], b"n", VERIFIER), Status::BADHANDLE),
        (mkdir(&root[..11], b"nam", none), Status::BADHANDLE),
        (
            rename(&root[..9], b"newer", &root[..11], b"no"),
            Status::BADHANDLE,
        ),
    ] {
        let header = header(&mut lane, request.procedure(), 5, 3);
        let call = Padded::new(&header, &request.fields());
        let dirty = pads.everywhere(&call);
        expect(&mut lane, &dirty, status);
        for place in call.padded() {
            cut(&mut lane, &dirty, place);
        }
        lane.rule(rules::PADS_EVERYWHERE);
    }
    for length in [401, 402, 403] {
        for (credential, verifier) in [(length, 0), (0, length), (3, length)] {
            let header = header(&mut lane, procedure::NULL, credential, verifier);
            let dirty = pads.everywhere(&Padded::new(&header, &[]));
            assert_eq!(alike(&mut lane, &dirty).answer.number, 9);
            lane.rule(rules::PADS_LONG_HEADER);
        }
    }
}

/// Calls that end before their arguments are read.
pub(super) fn unread(runs: &mut Runs<'_>) {
    let mut lane = runs.open("padding: calls whose arguments are not read", (2, 2, 1));
    let pads = &mut Pads::new();
    let root = lane.root();
    let arguments = [
        Field::Handle(root[..11].to_vec()),
        Field::Text(b"name!".to_vec()),
        Field::Text(b"target".to_vec()),
    ];
    let served = procedure::LOOKUP;
    for (number, program, version, rule, ends) in [
        (
            served,
            100_005,
            3,
            rules::PADS_PROGRAM,
            message::PROG_UNAVAIL,
        ),
        (
            served,
            100_003,
            2,
            rules::PADS_VERSION,
            message::PROG_MISMATCH,
        ),
        (22, 100_003, 3, rules::PADS_PROCEDURE, message::PROC_UNAVAIL),
        (5, 100_003, 3, rules::PADS_UNREAD, message::SUCCESS),
        (10, 100_003, 3, rules::PADS_UNREAD, message::SUCCESS),
        (11, 100_003, 3, rules::PADS_UNREAD, message::SUCCESS),
        (17, 100_003, 3, rules::PADS_UNREAD, message::SUCCESS),
    ] {
        let header = Header {
            program,
            version,
            ..header(&mut lane, number, 2, 7)
        };
        let call = pads.everywhere(&Padded::new(&header, &arguments));
        let whole = alike(&mut lane, &call);
        assert_eq!(accepted(&whole), Some(ends));
        for place in call.padded() {
            let outcome = lane.raw(call.cut(place, 1));
            if place < ARGUMENTS {
                assert_eq!(outcome.answer.number, 8);
            } else {
                assert_eq!(outcome, whole);
            }
        }
        lane.rule(rule);
    }
    let header = Header {
        rpc_version: 3,
        ..header(&mut lane, served, 1, 2)
    };
    let call = pads.everywhere(&Padded::new(&header, &arguments));
    let whole = alike(&mut lane, &call);
    assert_eq!(word(&whole.reply, 8), message::DENIED);
    for place in call.padded() {
        for missing in 0..=call.count(place) {
            assert_eq!(lane.raw(call.cut(place, missing)), whole);
        }
    }
    lane.rule(rules::PADS_DENIED);
}

/// Arguments that are refused behind a padding, which does not excuse them.
pub(super) fn later_faults(runs: &mut Runs<'_>) {
    let mut lane = runs.open("padding: faults behind it", (3, 3, 1));
    let pads = &mut Pads::new();
    let root = lane.root();
    let file = lane.create(&root, b"name", 0);
    for (request, extra) in [
        (getattr(&file[..11]), 1),
        (lookup(&root, b"n"), 2),
        (remove(&root, b"na"), 3),
        (rmdir(&root, b"nam"), 4),
        (rename(&root, b"name", &root, b"n"), 1),
        (link(&file, &root, b"li"), 3),
        (write(&file, 0, b"da"), 4),
        (write(&file, 0, b"dat"), 2),
        (guarded(&root, b"new", Attributes::default()), 4),
    ] {
        let call = padded(&mut lane, &request);
        let mut dirty = pads.everywhere(&call);
        dirty.bytes.resize(dirty.bytes.len() + extra, 0xFF);
        assert!(is_garbage(&alike(&mut lane, &dirty)));
        lane.rule(rules::PADS_LEFT_OVER);
    }
    let handled = |length: usize| Field::Handle(root[..length].to_vec());
    let text = |text: &[u8]| Field::Text(text.to_vec());
    let past = Field::Raw(vec![0, 0, 0, 9, b'n', b'a', b'm', b'e']);
    let too_long = Field::Handle(vec![7; 65]);
    let boolean = Field::Boolean(false);
    for (number, fields) in [
        (procedure::LOOKUP, vec![handled(11), past.clone()]),
        (procedure::LOOKUP, vec![handled(9), Field::Word(u32::MAX)]),
        (procedure::REMOVE, vec![handled(10)]),
        (procedure::ACCESS, vec![handled(10)]),
        (
            procedure::RENAME,
            vec![handled(12), text(b"n"), too_long.clone(), text(b"n")],
        ),
        (
            procedure::RENAME,
            vec![handled(11), text(b"na"), handled(9), past.clone()],
        ),
        (procedure::LINK, vec![handled(11), handled(9), past.clone()]),
        (
            procedure::LINK,
            vec![handled(10), too_long.clone(), text(b"n")],
        ),
        (procedure::SETATTR, vec![handled(9), Field::Word(2)]),
        (
            procedure::CREATE,
            vec![handled(12), text(b"n"), Field::Word(3)],
        ),
        (
            procedure::CREATE,
            vec![handled(12), text(b"n"), Field::Word(2), Field::Word(2)],
        ),
        (
            procedure::MKDIR,
            vec![handled(12), text(b"nam"), boolean, Field::Word(2)],
        ),
        (
            procedure::WRITE,
            vec![
                handled(11),
                Field::Hyper(0),
                Field::Word(3),
                Field::Word(3),
                text(b"dat"),
            ],
        ),
        (
            procedure::WRITE,
            vec![
                handled(11),
                Field::Hyper(0),
                Field::Word(9),
                Field::Word(2),
                past,
            ],
        ),
    ] {
        let header = header(&mut lane, number, 3, 2);
        let dirty = pads.everywhere(&Padded::new(&header, &fields));
        assert!(is_garbage(&alike(&mut lane, &dirty)), "{number} {fields:?}");
        lane.rule(rules::PADS_LATER_FAULT);
    }
}

/// Padding in lent buffers, which no call leaves behind.
pub(super) fn lent_buffers(runs: &mut Runs<'_>) {
    let mut lane = runs.open("padding: in a store and in an old image", (4, 4, 0));
    let pads = &mut Pads::new();
    let root = lane.root();
    for name in [&b"a"[..], b"bb", b"ccc"] {
        done(
            &mut lane,
            pads,
            &guarded(&root, name, Attributes::default()),
        );
    }
    assert_eq!(lane.driver.check().number, 0);
    let sound = old_image(lane.shape, lane.driver.store());
    let mut old_images = Vec::new();
    for (record, length) in [(0, 1), (1, 2), (2, 3)] {
        for (at, byte) in [(length, b'/'), (length, b'0'), (3, 0xFF), (31, 1)] {
            let at = lane.name_at(record) + name_field::TEXT + at;
            lane.driver.patch(at, &[byte]);
            assert_eq!(lane.driver.check().number, 1);
            let call = padded(&mut lane, &lookup(&root, b"a"));
            let dirty = pads.everywhere(&call);
            assert_eq!(alike(&mut lane, &dirty).answer.number, 1);
            lane.rule(rules::PADS_IN_STORE);
            old_images.push(old_image(lane.shape, lane.driver.store()));
            lane.driver.patch(at, &[0]);
        }
    }
    for image in old_images {
        assert_eq!(lane.driver.convert(&image).number, 1);
        lane.rule(rules::PADS_IN_OLD_IMAGE);
    }
    assert_eq!(lane.driver.convert(&sound).number, 0);
}
