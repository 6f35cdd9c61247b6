//! Entry answers, headers, RPC outcomes, formats and malformed arguments.

use super::*;
use crate::generator::coverage::PROCEDURE_NAMES;
use crate::generator::driver::{Call, Format};
use crate::generator::encode::{encode, handle, malformed, Attributes, Header, Request};
use crate::generator::lane::*;
use crate::layout::Shape;
use crate::numbers::Status;

pub(super) fn examples(runs: &mut Runs<'_>) {
    let mut lane = runs.open("examples: smallest store", (1, 0, 0));
    lane.driver.note(EXAMPLES, "NULL with xid 7");
    let outcome = lane.raw(&Request::Null.call(7));
    assert_eq!(outcome.answer.length, 24);
    let root = lane.root();
    lane.driver.note(EXAMPLES, "smallest store, MKDIR");
    let request = mkdir(&root, b"d", Attributes::default());
    lane.expect("MKDIR NOSPC: smallest store", &request, Status::NOSPC);

    let mut lane = runs.open("examples: lengths", (8, 8, 8));
    for (label, request, length) in [
        ("GETATTR success 112 bytes", getattr(&root), 112),
        ("GETATTR STALE 28 bytes", getattr(&handle(STAMP, 1, 0)), 28),
        (
            "CREATE success 252 bytes",
            unchecked(&root, b"a", Attributes::default()),
            252,
        ),
        ("LOOKUP success 220 bytes", lookup(&root, b"a"), 220),
        (
            "WRITE success 160 bytes",
            write(&handle(STAMP, 1, 0), 0, b"data"),
            160,
        ),
    ] {
        lane.driver.note(EXAMPLES, label);
        let outcome = lane.send(&request);
        assert_eq!(outcome.reply.len(), length, "{label}");
    }

    let mut lane = runs.open("examples: listing of a new root", (4, 4, 4));
    for count in [160, 159, 132, 131, 104, 103, 4096] {
        lane.driver.note(EXAMPLES, "READDIR of a new root");
        lane.send(&readdir(&root, 0, 0, count));
    }
    lane.driver.note(EXAMPLES, "READDIR cookie 2, count 104");
    lane.send(&readdir(&root, 2, 0, 104));

    let mut lane = runs.open("examples: end of the largest file", (2, 2, 16));
    let file = lane.create(&root, b"f", 0);
    lane.driver.note(EXAMPLES, "WRITE of 1 byte at 8,191");
    lane.done(&write(&file, 8191, b"x"));
    lane.driver.note(EXAMPLES, "WRITE of 1 byte at 8,192");
    lane.expect(
        "WRITE FBIG: at 8,192",
        &write(&file, 8192, b"x"),
        Status::FBIG,
    );
    lane.driver.note(EXAMPLES, "WRITE of 0 bytes at 8,192");
    lane.done(&write(&file, 8192, b""));
    lane.done(&read(&file, 4096, 4096));

    let mut lane = runs.open("examples: two names", (3, 3, 0));
    lane.driver
        .note(EXAMPLES, "two names, one the end of the other");
    lane.create(&root, b"0123456789", 0);
    lane.create(&root, b"123456789", 0);
    lane.done(&lookup(&root, b"0123456789"));
    lane.done(&lookup(&root, b"123456789"));
    lane.expect(
        "LOOKUP NOENT: beginning of a name",
        &lookup(&root, b"012345678"),
        Status::NOENT,
    );
    lane.done(&readdir(&root, 0, 0, 4096));
}

/// Every set of faults of a call answers the one tested first.
pub(super) fn entry_answers(runs: &mut Runs<'_>) {
    for damaged in [false, true] {
        let title = if damaged {
            "refusals on a damaged store"
        } else {
            "refusals"
        };
        let mut lane = runs.open(title, (2, 2, 2));
        if damaged {
            let at = lane.object_at(0);
            lane.patch_word(at, 1);
        }
        for faults in 0..16 {
            let (small, clock, long, reply) = (
                faults & 1 != 0,
                faults & 2 != 0,
                faults & 4 != 0,
                faults & 8 != 0,
            );
            let mut bytes = Request::Null.call(faults);
            if reply {
                bytes[4] = 1;
            }
            if long {
                bytes.resize(8193, 0);
            }
            let wanted = if small {
                2
            } else if clock {
                3
            } else if long {
                4
            } else if damaged {
                1
            } else if reply {
                7
            } else {
                0
            };
            lane.driver
                .note(ANSWERS, &format!("call {wanted}: every set of faults"));
            let outcome = lane.driver.call(Call {
                bytes: &bytes,
                seconds: 5,
                nanoseconds: if clock { 1_000_000_000 } else { 999_999_999 },
                verifier: 1,
                space: if small { 4223 } else { 4224 },
            });
            assert_eq!(outcome.answer.number, wanted);
        }
    }
    let mut lane = runs.open("edges of the entry tests", (2, 2, 2));
    let null = Request::Null.call(3);
    for (space, wanted) in [
        (0, 2),
        (1, 2),
        (4223, 2),
        (4224, 0),
        (4225, 0),
        (5001, 0),
        (8192, 0),
    ] {
        lane.driver
            .note(ANSWERS, &format!("call {wanted}: reply space {space}"));
        let outcome = lane.driver.call(Call {
            bytes: &null,
            seconds: 0,
            nanoseconds: 0,
            verifier: 0,
            space,
        });
        assert_eq!(outcome.answer.number, wanted);
    }
    for (nanoseconds, wanted) in [
        (999_999_999, 0),
        (1_000_000_000, 3),
        (0x8000_0000, 3),
        (u32::MAX, 3),
    ] {
        lane.driver.note(
            ANSWERS,
            &format!("call {wanted}: nanoseconds {nanoseconds}"),
        );
        let outcome = lane.driver.call(Call {
            bytes: &null,
            seconds: u32::MAX,
            nanoseconds,
            verifier: u64::MAX,
            space: 4224,
        });
        assert_eq!(outcome.answer.number, wanted);
    }
    for (length, wanted) in [(8191, 0), (8192, 0), (8193, 4), (9999, 4), (10_000, 4)] {
        lane.driver
            .note(ANSWERS, &format!("call {wanted}: {length} call bytes"));
        let mut bytes = null.clone();
        bytes.resize(length, 0);
        assert_eq!(lane.raw(&bytes).answer.number, wanted);
    }
}

pub(super) fn headers(runs: &mut Runs<'_>) {
    let mut lane = runs.open("headers", (1, 0, 0));
    let full = Header {
        credential: (1, vec![4; 5]),
        verifier: (77, vec![6; 3]),
        ..Header::new(1, 0)
    };
    let bytes = full.encode();
    let refused = |lane: &mut Lane<'_>, number: u32, label: &str, bytes: &[u8]| {
        lane.driver
            .note(ANSWERS, &format!("call {number}: {label}"));
        assert_eq!(lane.raw(bytes).answer.number, number, "{label}");
    };
    for length in 0..bytes.len() {
        let (number, label) = match length {
            0..=7 => (5, "under 8 bytes"),
            8..=11 => (8, "too short for the RPC version"),
            12..=23 => (8, "cut before the credential"),
            24..=39 => (8, "cut in the credential"),
            _ => (8, "cut in the verifier"),
        };
        refused(&mut lane, number, label, &bytes[..length]);
    }
    assert_eq!(lane.raw(&bytes).answer.number, 0);
    for kind in [1, 2, 0x0100_0000, 0x8000_0000, u32::MAX] {
        let other = Header {
            kind,
            ..full.clone()
        };
        refused(&mut lane, 7, "message type not 0", &other.encode());
        let other = Header {
            rpc_version: 3,
            ..other
        };
        refused(&mut lane, 7, "message type not 0", &other.encode());
    }
    for length in [0usize, 1, 2, 3, 4, 399, 400, 401, 402, 404, 1000] {
        for (is_verifier, label) in [(false, "credential"), (true, "verifier")] {
            let mut header = Header::new(9, 0);
            let auth = (length as u32, vec![0xC3; length]);
            if is_verifier {
                header.verifier = auth;
            } else {
                header.credential = auth;
            }
            let bytes = header.encode();
            if length > 400 {
                refused(&mut lane, 9, &format!("{label} over 400 bytes"), &bytes);
            } else {
                assert_eq!(lane.raw(&bytes).answer.number, 0);
            }
        }
    }
    for length in [401, 1000, 0x8000_0000, u32::MAX - 3, u32::MAX] {
        for at in [28, 36] {
            let mut bytes = Header::new(9, 0).encode();
            bytes[at..at + 4].copy_from_slice(&u32::to_be_bytes(length));
            refused(&mut lane, 9, "length over 400 without bytes", &bytes);
        }
    }
    // The header comes before the program is judged.
    let mut other = Header {
        program: 1,
        ..full.clone()
    }
    .encode();
    other.pop();
    refused(&mut lane, 8, "cut header of another program", &other);

    let outcome = |lane: &mut Lane<'_>, label: &str, bytes: &[u8], length: u32| {
        lane.driver.note(OUTCOMES, label);
        let outcome = lane.raw(bytes);
        assert_eq!(outcome.answer.length, length, "{label}");
    };
    for version in [0, 1, 3, 0x0200_0000, u32::MAX] {
        let header = Header {
            rpc_version: version,
            ..Header::new(8, 99)
        };
        for length in [12, 13, 20, 40] {
            outcome(&mut lane, "RPC_MISMATCH", &header.encode()[..length], 24);
        }
    }
    for program in [0, 100_000, 100_002, 100_004, 100_005, u32::MAX] {
        let header = Header {
            program,
            version: 9,
            ..Header::new(8, 99)
        };
        outcome(&mut lane, "PROG_UNAVAIL", &header.call(&[1]), 24);
    }
    for version in [0, 1, 2, 4, u32::MAX] {
        let header = Header {
            version,
            ..Header::new(8, 99)
        };
        outcome(&mut lane, "PROG_MISMATCH", &header.call(&[1]), 32);
    }
    for number in [22, 23, 100, 0x0100_0000, u32::MAX] {
        outcome(
            &mut lane,
            "PROC_UNAVAIL",
            &Header::new(8, number).call(&[1]),
            24,
        );
    }
    for count in [1, 2, 3, 4, 5, 8] {
        outcome(
            &mut lane,
            "GARBAGE_ARGS: NULL with bytes after the header",
            &Header::new(8, 0).call(&vec![0; count]),
            24,
        );
    }
    for number in [5, 10, 11, 17] {
        for arguments in [
            vec![],
            vec![0],
            vec![1; 3],
            vec![0xFF; 61],
            handle(STAMP, 0, 0),
        ] {
            let bytes = Header::new(8, number).call(&arguments);
            lane.driver.note(
                STATUSES,
                &format!(
                    "{} NOTSUPP: unread arguments",
                    PROCEDURE_NAMES[number as usize]
                ),
            );
            let outcome = lane.raw(&bytes);
            assert_eq!(status_of(&outcome.reply), Some(Status::NOTSUPP.0));
        }
    }
}

pub(super) fn formats(runs: &mut Runs<'_>) {
    let plan = |objects, names, blocks, nanoseconds| Format {
        stamp: 7,
        objects,
        names,
        blocks,
        seconds: u32::MAX,
        nanoseconds,
    };
    let number = runs.take_number();
    let driver = &mut *runs.driver;
    let one_of_each = Shape {
        objects: 1,
        names: 1,
        blocks: 1,
    };
    driver.start(number, one_of_each.length(), "formats");
    driver.check();
    for (objects, names, blocks, nanoseconds, wanted) in [
        (1, 1, 1, 1_000_000_000, 3),
        (1, 1, 1, u32::MAX, 3),
        (0, 1, 1, 1_000_000_000, 3),
        (0, 1, 1, 0, 6),
        (65, 1, 1, 0, 6),
        (1, 129, 1, 0, 6),
        (1, 1, 1025, 0, 6),
        (2, 1, 1, 0, 6),
        (1, 0, 1, 0, 6),
        (1, 2, 1, 0, 6),
        (1, 1, 0, 0, 6),
        (1, 1, 2, 0, 6),
        (u32::MAX, u32::MAX, u32::MAX, 0, 6),
        (0x0100_0001, 1, 1, 0, 6),
        // Lengths that are this one's in the low 32 bits.
        (700_266_414, 0, 0, 0, 6),
        (1, 1, 8_388_609, 0, 6),
    ] {
        driver.note(ANSWERS, &format!("format {wanted}"));
        let answer = driver.format(plan(objects, names, blocks, nanoseconds));
        assert_eq!(answer.number, wanted);
    }
    assert_eq!(driver.format(plan(1, 1, 1, 999_999_999)).number, 0);
    driver.check();
    // Again over a used store: nothing of it stays.
    driver.patch(16, &[1, 2, 3, 4]);
    driver.patch(600, &[9; 20]);
    driver.check();
    assert_eq!(driver.format(plan(1, 1, 1, 0)).number, 0);
    driver.check();
    for (objects, names, blocks) in [
        (1, 0, 0),
        (64, 0, 0),
        (1, 128, 0),
        (1, 0, 1024),
        (64, 128, 1024),
        (3, 5, 7),
    ] {
        let shape = Shape {
            objects,
            names,
            blocks,
        };
        for (extra, wanted) in [(0, 0), (1, 6), (-1, 6)] {
            let number = runs.take_number();
            let driver = &mut *runs.driver;
            let length = shape.length().wrapping_add_signed(extra);
            driver.start(number, length, "format by length");
            driver.note(ANSWERS, &format!("format {wanted}: by length"));
            let answer = driver.format(plan(objects as u32, names as u32, blocks as u32, 1));
            assert_eq!(answer.number, wanted);
            driver.check();
            driver.call(Call {
                bytes: &Request::Null.call(1),
                seconds: 0,
                nanoseconds: 0,
                verifier: 0,
                space: 4224,
            });
        }
    }
    // Counts just over their range in a buffer of the fitting length.
    for (objects, names, blocks) in [
        (65usize, 0usize, 0usize),
        (1, 129, 0),
        (1, 0, 1025),
        (0, 0, 0),
    ] {
        let number = runs.take_number();
        let driver = &mut *runs.driver;
        let length = Shape {
            objects,
            names,
            blocks,
        }
        .length();
        driver.start(number, length, "format with a count out of range");
        driver.note(ANSWERS, "format 6: count out of range, fitting length");
        let answer = driver.format(plan(objects as u32, names as u32, blocks as u32, 1));
        assert_eq!(answer.number, 6);
        driver.check();
    }
    for length in [0, 1, 3, 4, 8, 11, 12, 15, 16, 19, 20, 100, 111, 113] {
        let number = runs.take_number();
        let driver = &mut *runs.driver;
        driver.start(number, length, "short stores");
        let smallest = smallest_image();
        let bytes = &smallest[..length.min(smallest.len())];
        driver.patch(0, bytes);
        driver.note(ANSWERS, "check 1: store of another length");
        assert_eq!(driver.check().number, 1);
        driver.format(plan(1, 0, 0, 0));
    }
}

/// The smallest valid store.
fn smallest_image() -> Vec<u8> {
    let mut store = vec![0; 112];
    crate::format(&mut store, STAMP, 1, 0, 0, 1, 2);
    store
}

pub(super) fn malformed_arguments(runs: &mut Runs<'_>) {
    let mut lane = runs.open("malformed arguments", (3, 3, 1));
    let root = lane.root();
    let file = lane.create(&root, b"name", 0);
    for request in full_requests(&file, &root) {
        for (kind, arguments) in malformed(&request.fields()) {
            let number = request.procedure();
            lane.driver.note(
                MALFORMED,
                &format!("{}: {kind}", PROCEDURE_NAMES[number as usize]),
            );
            let outcome = lane.raw(&Header::new(3, number).call(&arguments));
            assert_eq!(outcome.reply.len(), 24, "{request:?} {kind}");
            assert_eq!(outcome.reply[23], 4, "{request:?} {kind}");
        }
    }
    // The bad handle would be BADHANDLE, but the arguments are read first.
    for request in full_requests(&[1, 2, 3], &[]) {
        let mut arguments = encode(&request.fields());
        arguments.push(0);
        lane.driver
            .note(MALFORMED, "bad handle, then bytes left over");
        let outcome = lane.raw(&Header::new(3, request.procedure()).call(&arguments));
        assert_eq!(outcome.reply.len(), 24);
    }
}

/// Every byte of sound calls changed, one at a time. The header is changed in
/// one call only, since it is the same in all.
pub(super) fn changed_bytes(runs: &mut Runs<'_>) {
    let mut lane = runs.open("changed bytes of sound calls", (4, 4, 2));
    let root = lane.root();
    let file = lane.create(&root, b"name", 100);
    let header = Request::Null.call(0).len();
    for (index, request) in full_requests(&file, &root).into_iter().enumerate() {
        let whole = request.call(0x0102_0304);
        let first = if index == 0 { 0 } else { header };
        for at in first..whole.len() {
            let mut bytes = whole.clone();
            bytes[at] ^= 1 << ((at + index) % 8);
            lane.driver
                .note(CHANGED, PROCEDURE_NAMES[request.procedure() as usize]);
            lane.raw(&bytes);
        }
    }
}
