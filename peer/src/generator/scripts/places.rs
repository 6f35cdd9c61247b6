//! Where calls are broken: every item of the header and of the arguments.

use super::*;
use crate::generator::broken_calls::{Script, Sender};
use crate::generator::driver::{Call, Format, Outcome};
use crate::generator::encode::{encode, handle, Attributes, Field, Header, Request};
use crate::generator::old_images::old_image;
use crate::generator::rules::{self, mount::possible, place as rule};
use crate::numbers::Status;

impl Sender for Lane<'_> {
    fn deliver(&mut self, bytes: &[u8]) -> Outcome {
        self.driver.call(Call {
            bytes,
            seconds: self.seconds,
            nanoseconds: self.nanoseconds,
            verifier: self.verifier,
            space: self.space,
        })
    }

    fn note(&mut self, label: &str) {
        self.driver.note(rules::PLACE_GROUP, label);
    }

    fn header(&self, procedure: u32) -> Header {
        Header::new(7, procedure)
    }
}

pub(super) fn headers(runs: &mut Runs<'_>) {
    let mut lane = runs.open("places: headers", (1, 0, 0));
    let request = getattr(&lane.root());
    let mut script = Script::new(&mut lane, rule::nfs());
    script.headers(request.procedure(), &request.fields());
}

/// A request of each form with all optional parts, the handles and names given.
fn requests(file: &[u8], directory: &[u8], name: &[u8], data: &[u8]) -> Vec<Request> {
    let all = Attributes {
        mode: Some(0o644),
        uid: Some(1),
        gid: Some(2),
        size: Some(3),
        atime: Time::Client(4, 5),
        mtime: Time::Client(6, 7),
    };
    vec![
        Request::Null,
        getattr(file),
        setattr(file, all, Some((8, 9))),
        lookup(directory, name),
        access(file, 63),
        read(file, 1, 2),
        write(file, 1, data),
        unchecked(directory, name, all),
        guarded(directory, name, all),
        exclusive(directory, name, VERIFIER),
        mkdir(directory, name, all),
        remove(directory, name),
        rmdir(directory, name),
        rename(directory, name, directory, name),
        link(file, directory, name),
        readdir(directory, 0, 0, 4096),
        fsstat(file),
        fsinfo(file),
        pathconf(file),
        commit(file, 0, 0),
    ]
}

pub(super) fn arguments(runs: &mut Runs<'_>) {
    let mut lane = runs.open("places: arguments", (3, 3, 1));
    let root = lane.root();
    let file = lane.create(&root, b"name", 0);
    let store = lane.driver.store().to_vec();
    let mut script = Script::new(&mut lane, rule::nfs());
    let forms = rule::NFS_FORMS;
    for (form, request) in forms.iter().zip(requests(&file, &root, b"name", b"data")) {
        script.arguments(form, &request.fields());
    }
    // Pad bytes behind handles, names and data.
    for (length, name) in [(11, &b"na"[..]), (9, b"nam"), (5, b"n")] {
        let sent = requests(&file[..length], &root[..length], name, b"data!");
        for (form, request) in forms.iter().zip(sent).skip(1) {
            script.pads(form, &request.fields());
        }
    }
    let none = Attributes::default();
    let server = Attributes {
        atime: Time::Server,
        mtime: Time::Server,
        ..none
    };
    for request in [
        setattr(&file, none, None),
        setattr(&file, server, Some((1, 2))),
        setattr(&file, Attributes::size(5), None),
        guarded(&root, b"new", none),
        unchecked(&root, b"longer-name", Attributes::mode(1)),
        guarded(&root, b"", server),
        mkdir(&root, b"d", none),
        lookup(&root, b""),
        link(&file, &root, b""),
        link(b"", &[1; 64], b"longer-name"),
        write(&file, 0, b""),
        getattr(b""),
        getattr(&[1; 64]),
    ] {
        script.cut_anywhere(request.procedure(), &request.fields());
    }
    script.rule(rule::OMITTED);
    by_hand(&mut script, &root);
    assert!(lane.driver.store() == store);
}

/// Some places counted by hand.
fn by_hand(script: &mut Script<'_>, root: &[u8]) {
    let one_time = Attributes {
        atime: Time::Client(1, 2),
        ..Attributes::default()
    };
    // The handle from 40 on, four booleans from 56 on, the manner of the first
    // time at 72, its seconds at 76, its nanoseconds at 80, the other manner at
    // 84, the guard's boolean at 88, its seconds at 92, its nanoseconds at 96.
    let request = setattr(root, one_time, Some((3, 4)));
    let call = request.call(7);
    assert_eq!(call.len(), 100);
    for (length, offset) in [
        (72, 72),
        (75, 72),
        (76, 76),
        (79, 76),
        (80, 80),
        (83, 80),
        (84, 84),
        (88, 88),
        (92, 92),
        (95, 92),
        (96, 96),
        (99, 96),
    ] {
        script.see(&call[..length], (0, offset));
    }
    let other = Attributes {
        mtime: Time::Client(1, 2),
        ..Attributes::default()
    };
    let call = setattr(root, other, None).call(7);
    for (length, offset) in [(79, 76), (80, 80), (83, 80), (84, 84), (87, 84)] {
        script.see(&call[..length], (0, offset));
    }
    script.rule(rule::TIMES);
    // The name from 56 on, the manner at 64, the verifier from 68 to 75.
    let call = exclusive(root, b"abcd", VERIFIER).call(7);
    assert_eq!(call.len(), 76);
    for length in 68..76 {
        script.see(&call[..length], (0, 68));
    }
    // The cookie from 56 on, the verifier from 64 to 71, the count at 72.
    let call = readdir(root, 0, 0, 100).call(7);
    assert_eq!(call.len(), 76);
    for length in 56..76 {
        let offset = match length {
            56..64 => 56,
            64..72 => 64,
            _ => 72,
        };
        script.see(&call[..length], (0, offset));
    }
    script.rule(rule::FIXED);
}

/// Handles that would be refused: the arguments come first.
pub(super) fn bad_handles(runs: &mut Runs<'_>) {
    let mut lane = runs.open("places: bad and stale handles", (3, 3, 1));
    let root = lane.root();
    let mut script = Script::new(&mut lane, rule::nfs());
    let stale = handle(STAMP, 0, 9);
    let free = handle(STAMP, 2, 0);
    let beyond = handle(STAMP, 3, 0);
    let other_stamp = handle(!STAMP, 0, 0);
    let handles = [&stale[..], &free, &beyond, &other_stamp, &root[..8], b""];
    for bad in handles {
        for (form, request) in rule::NFS_FORMS
            .iter()
            .zip(requests(bad, bad, b"name", b"data"))
            .skip(1)
        {
            let header = Header::new(7, form.procedure);
            let call = header.call(&encode(&request.fields()));
            let end = call.len();
            script.see(&[&call[..], b"\0"].concat(), (0, end));
            script.see(&[&call[..], &root].concat(), (0, end));
            let last = request
                .fields()
                .pop()
                .map_or(0, |last| encode(&[last]).len());
            script.see(&call[..end - 1], (0, end - last));
            script.rule(&rule::bad_handle(form.name));
        }
    }
    // A bad handle first, and a second one that is too long.
    let long = Field::Handle(vec![7; 65]);
    let text = Field::Text(b"name".to_vec());
    let fields = [
        Field::Handle(stale.clone()),
        text.clone(),
        long.clone(),
        text.clone(),
    ];
    let call = Header::new(7, 14).call(&encode(&fields));
    script.see(&call, (0, 64));
    let fields = [Field::Handle(stale), long, text];
    let call = Header::new(7, 15).call(&encode(&fields));
    script.see(&call, (0, 56));
}

/// Answers with offset 0: procedures that are not served, statuses, the other
/// entries, and refusals that come before the header.
pub(super) fn nowhere(runs: &mut Runs<'_>) {
    let mut lane = runs.open("places: none", (4, 4, 1));
    let root = lane.root();
    let mut script = Script::new(&mut lane, rule::nfs());
    for number in rule::UNSERVED {
        for arguments in [
            vec![],
            vec![0],
            vec![0xFF; 2],
            vec![1; 7],
            u32::MAX.to_be_bytes().to_vec(),
            [&[0, 0, 0, 65][..], &[7; 68]].concat(),
            root.clone(),
            [&[0, 0, 0, 12][..], &root, &[0, 0, 0, 9, b'n']].concat(),
        ] {
            let outcome = script.see(&Header::new(7, number).call(&arguments), (0, 0));
            assert_eq!(status_of(&outcome.reply), Some(Status::NOTSUPP.0));
        }
        script.rule(&rule::unserved(number));
    }
    statuses(&mut lane);
    other_entries(&mut lane);
    earlier(&mut lane);
}

/// Every status but OK.
fn statuses(lane: &mut Lane<'_>) {
    let root = lane.root();
    let file = lane.create(&root, b"file", 0);
    let directory = lane.mkdir(&root, b"full");
    lane.create(&directory, b"inside", 0);
    let none = Attributes::default();
    for (request, status) in [
        (lookup(&root, b"x"), Status::NOENT),
        (lookup(&root, b"a/b"), Status::ACCES),
        (guarded(&root, b"file", none), Status::EXIST),
        (lookup(&file, b"x"), Status::NOTDIR),
        (read(&root, 0, 1), Status::INVAL),
        (write(&file, 8192, b"x"), Status::FBIG),
        (write(&file, 600, b"x"), Status::NOSPC),
        (lookup(&root, &[b'n'; 33]), Status::NAMETOOLONG),
        (rmdir(&root, b"full"), Status::NOTEMPTY),
        (getattr(&handle(STAMP, 0, 1)), Status::STALE),
        (getattr(&root[..4]), Status::BADHANDLE),
        (setattr(&file, none, Some((0, 0))), Status::NOT_SYNC),
        (readdir(&root, 0, 1, 4096), Status::BAD_COOKIE),
        (readdir(&root, 0, 0, 100), Status::TOOSMALL),
    ] {
        let outcome = lane.deliver(&request.call(7));
        assert_eq!(status_of(&outcome.reply), Some(status.0), "{request:?}");
        assert_eq!(outcome.answer.offset, 0);
    }
    lane.note(rule::STATUSES);
}

/// Check, format and convert.
fn other_entries(lane: &mut Lane<'_>) {
    let kept = lane.driver.store().to_vec();
    let image = old_image(lane.shape, &kept);
    let mut answers = vec![lane.driver.check()];
    let at = lane.object_at(0);
    lane.patch_word(at, 9);
    answers.push(lane.driver.check());
    lane.patch_word(at, 2);
    let plan = Format {
        stamp: STAMP,
        objects: lane.shape.objects as u32,
        names: lane.shape.names as u32,
        blocks: lane.shape.blocks as u32,
        seconds: 1,
        nanoseconds: 2,
    };
    for plan in [
        Format {
            nanoseconds: u32::MAX,
            ..plan
        },
        Format {
            objects: 65,
            ..plan
        },
        plan,
    ] {
        answers.push(lane.driver.format(plan));
    }
    answers.push(lane.driver.convert(&image[..image.len() - 1]));
    answers.push(lane.driver.convert(&image));
    let numbers: Vec<u32> = answers.iter().map(|answer| answer.number).collect();
    assert_eq!(numbers, [0, 1, 3, 6, 0, 1, 0]);
    assert!(answers.iter().all(|answer| answer.offset == 0));
    lane.note(rule::OTHER_ENTRIES);
}

/// A call with this fault; it is too long if that is wanted.
pub(in crate::generator) fn faulty(sound: &[u8], fault: u32, long: bool) -> Vec<u8> {
    let mut bytes = sound.to_vec();
    match fault {
        5 => bytes.truncate(6),
        7 => bytes[4] = 0x80,
        8 => bytes.truncate(38),
        9 => bytes[28..32].copy_from_slice(&[0, 0, 1, 0x91]),
        _ => bytes.push(0),
    }
    if long {
        bytes.resize(8193, 0);
    }
    bytes
}

/// Refusals that come before the header, with a call that is broken too.
fn earlier(lane: &mut Lane<'_>) {
    let sound = Request::Null.call(7);
    let root = lane.object_at(0);
    for number in [2, 3, 4, 1] {
        lane.patch_word(root, if number == 1 { 0 } else { 2 });
        for fault in rule::FAULTS {
            if !possible(&[number, fault]) {
                continue;
            }
            let bytes = faulty(&sound, fault, number == 4);
            let outcome = lane.driver.call(Call {
                bytes: &bytes,
                seconds: 1,
                nanoseconds: if number == 3 { 1_000_000_000 } else { 5 },
                verifier: 2,
                space: if number == 2 { 4223 } else { 4224 },
            });
            let answer = outcome.answer;
            assert_eq!(
                (answer.number, answer.length, answer.offset),
                (number, 0, 0)
            );
            lane.note(&rule::earlier(number, fault));
        }
    }
    lane.patch_word(root, 2);
}
