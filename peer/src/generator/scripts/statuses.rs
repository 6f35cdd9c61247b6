//! Every status of every procedure, one by one.

use super::*;
use crate::generator::coverage::PROCEDURE_NAMES;
use crate::generator::encode::{handle, Attributes, Request, Time};
use crate::generator::lane::*;
use crate::numbers::Status;

pub(super) fn handles_and_names(runs: &mut Runs<'_>) {
    let mut lane = runs.open("handles", (4, 4, 4));
    let root = lane.root();
    let file = lane.create(&root, b"f", 100);
    lane.create(&root, b"gone", 0);
    lane.done(&remove(&root, b"gone"));
    let mut long = file.clone();
    long.push(0);
    let bad: Vec<(&str, Vec<u8>)> = vec![
        ("BADHANDLE: empty handle", vec![]),
        ("BADHANDLE: 11 bytes", file[..11].to_vec()),
        ("BADHANDLE: 13 bytes", long),
        ("BADHANDLE: 64 bytes", vec![0; 64]),
        ("BADHANDLE: object not below P", handle(STAMP, 4, 0)),
        ("BADHANDLE: object far above P", handle(STAMP, u32::MAX, 0)),
        (
            "BADHANDLE: object not below P, other stamp",
            handle(STAMP + 1, 4, 0),
        ),
        ("STALE: other stamp", handle(STAMP + 1, 1, 0)),
        (
            "STALE: free with its present generation",
            handle(STAMP, 3, 0),
        ),
        ("STALE: removed object", handle(STAMP, 2, 0)),
        ("STALE: freed with its new generation", handle(STAMP, 2, 1)),
        ("STALE: other generation", handle(STAMP, 1, 1)),
        ("STALE: largest generation", handle(STAMP, 1, u32::MAX)),
    ];
    for (label, bytes) in &bad {
        let status = if label.starts_with("BAD") {
            Status::BADHANDLE
        } else {
            Status::STALE
        };
        let mut requests = full_requests(bytes, bytes);
        requests.push(rename(bytes, b"f", &root, b"g"));
        requests.push(rename(bytes, b"f", &file, b"g"));
        requests.push(rename(&root, b"f", bytes, b"g"));
        requests.push(link(bytes, &file, b""));
        requests.push(link(&file, bytes, b""));
        for request in requests {
            let name = PROCEDURE_NAMES[request.procedure() as usize];
            lane.expect(&format!("{name} {label}"), &request, status);
        }
        lane.expect(
            "RENAME NOTDIR: first directory, second handle not live",
            &rename(&file, b"", bytes, b""),
            Status::NOTDIR,
        );
    }
    // A live handle of the wrong type.
    for request in [
        lookup(&file, b""),
        guarded(&file, b"", Attributes::mode(4096)),
        exclusive(&file, b"", VERIFIER),
        mkdir(&file, b"", Attributes::mode(4096)),
        remove(&file, b""),
        rmdir(&file, b""),
        rename(&file, b"", &root, b""),
        rename(&root, b"", &file, b""),
        link(&file, &file, b""),
        readdir(&file, 0, 1, 0),
    ] {
        let name = PROCEDURE_NAMES[request.procedure() as usize];
        lane.expect(
            &format!("{name} NOTDIR: handle of a file"),
            &request,
            Status::NOTDIR,
        );
    }
    for request in [
        read(&root, 0, 1),
        write(&root, 0, b""),
        write_as(&root, 0, 7, 0, b"abc"),
        commit(&root, 0, 0),
        setattr(&root, Attributes::size(0), None),
        link(&root, &root, b""),
        link(&root, &file, b""),
    ] {
        let name = PROCEDURE_NAMES[request.procedure() as usize];
        lane.expect(
            &format!("{name} INVAL: handle of a directory"),
            &request,
            Status::INVAL,
        );
    }
    // Names.
    let too_long = [b'n'; 33];
    let mut both = [b'n'; 40];
    both[1] = b'/';
    for (label, name, status) in [
        ("ACCES: empty name", &b""[..], Status::ACCES),
        ("NAMETOOLONG: 33 bytes", &too_long, Status::NAMETOOLONG),
        ("NAMETOOLONG: before a slash", &both, Status::NAMETOOLONG),
        ("ACCES: slash", b"a/b", Status::ACCES),
        ("ACCES: byte 0", b"a\0", Status::ACCES),
        ("ACCES: only byte 0", b"\0", Status::ACCES),
    ] {
        let invalid = Attributes::mode(4096);
        for request in [
            lookup(&root, name),
            guarded(&root, name, invalid),
            unchecked(&root, name, invalid),
            exclusive(&root, name, VERIFIER),
            mkdir(&root, name, invalid),
            remove(&root, name),
            rmdir(&root, name),
            rename(&root, name, &root, b"."),
            rename(&root, b".", &root, name),
            rename(&root, b"..", &root, name),
            link(&file, &root, name),
        ] {
            let procedure = PROCEDURE_NAMES[request.procedure() as usize];
            lane.expect(&format!("{procedure} {label}"), &request, status);
        }
    }
    let every: Vec<u8> = (1..=255).filter(|&byte| byte != b'/').collect();
    for name in every.chunks(32) {
        lane.create(&root, name, 0);
        lane.done(&lookup(&root, name));
        lane.done(&readdir(&root, 0, 0, 4096));
        lane.done(&remove(&root, name));
    }
}

pub(super) fn attributes(runs: &mut Runs<'_>) {
    let mut lane = runs.open("attributes", (8, 8, 8));
    let root = lane.root();
    let first = lane.mkdir(&root, b"first");
    let second = lane.mkdir(&first, b"second");
    let file = lane.create(&second, b"file", 700);
    for object in [&root, &first, &second, &file] {
        lane.done(&getattr(object));
        for bits in [0, 1, 2, 4, 8, 16, 32, 64, 0x3F, u32::MAX] {
            lane.done(&access(object, bits));
        }
        let all = Attributes {
            mode: Some(4095),
            uid: Some(u32::MAX),
            gid: Some(0x8000_0000),
            size: None,
            atime: Time::Client(u32::MAX, 999_999_999),
            mtime: Time::Client(0, 0),
        };
        lane.done(&setattr(object, all, None));
        let server = Attributes {
            atime: Time::Server,
            mtime: Time::Server,
            ..Attributes::default()
        };
        lane.done(&setattr(object, server, None));
        lane.done(&setattr(object, Attributes::default(), None));
        let (seconds, nanoseconds) = (lane.seconds, lane.nanoseconds);
        for guard in [
            (seconds.wrapping_add(1), nanoseconds),
            (seconds, nanoseconds + 1),
            (nanoseconds, seconds),
            (seconds, 1_000_000_000),
        ] {
            lane.expect(
                "SETATTR NOT_SYNC: guard differs",
                &setattr(object, Attributes::mode(1), Some(guard)),
                Status::NOT_SYNC,
            );
            lane.expect(
                "SETATTR NOT_SYNC: before INVAL",
                &setattr(object, Attributes::mode(4096), Some(guard)),
                Status::NOT_SYNC,
            );
        }
        lane.done(&setattr(
            object,
            Attributes::mode(0),
            Some((seconds, nanoseconds)),
        ));
        for (label, attributes) in [
            ("mode", Attributes::mode(4096)),
            ("mode", Attributes::mode(u32::MAX)),
            (
                "access time",
                Attributes {
                    atime: Time::Client(0, 1_000_000_000),
                    ..Attributes::default()
                },
            ),
            (
                "modification time",
                Attributes {
                    mtime: Time::Client(0, u32::MAX),
                    ..Attributes::default()
                },
            ),
            ("size", Attributes::size(8193)),
            ("size", Attributes::size(1 << 32)),
            ("size", Attributes::size(u64::MAX)),
        ] {
            lane.expect(
                &format!("SETATTR INVAL: {label}"),
                &setattr(object, attributes, None),
                Status::INVAL,
            );
        }
    }
    for size in [0, 1, 8192] {
        lane.expect(
            "SETATTR INVAL: size on a directory",
            &setattr(&first, Attributes::size(size), None),
            Status::INVAL,
        );
    }
    for size in [700, 0, 1, 511, 512, 513, 4096, 4095, 1024, 1023, 1025, 0] {
        lane.done(&setattr(&file, Attributes::size(size), None));
    }
    let sized = Attributes {
        mtime: Time::Client(1, 2),
        ..Attributes::size(1000)
    };
    lane.done(&setattr(&file, sized, None));
    lane.expect(
        "SETATTR NOSPC: growth past the free blocks",
        &setattr(&file, Attributes::size(4097), None),
        Status::NOSPC,
    );
    lane.done(&setattr(&file, Attributes::size(4096), None));
    lane.expect(
        "SETATTR NOSPC: no free block",
        &setattr(&file, Attributes::size(4097), None),
        Status::NOSPC,
    );
    lane.done(&setattr(&file, Attributes::size(4000), None));
    for (directory, name) in [
        (&root, &b"."[..]),
        (&root, b".."),
        (&first, b"."),
        (&first, b".."),
        (&second, b".."),
        (&first, b"second"),
        (&second, b"file"),
    ] {
        lane.done(&lookup(directory, name));
    }
    for name in [&b"..."[..], b"fil", b"file1", b"second", b"File"] {
        lane.expect(
            "LOOKUP NOENT: no such name",
            &lookup(&second, name),
            Status::NOENT,
        );
    }
}

pub(super) fn reading_and_writing(runs: &mut Runs<'_>) {
    let mut lane = runs.open("reading and writing", (4, 4, 18));
    let root = lane.root();
    let file = lane.create(&root, b"f", 0);
    lane.done(&read(&file, 0, 10));
    // Bytes of no file, in every block.
    for block in 0..18 {
        let at = lane.block_at(block);
        lane.driver.patch(at, &[0xE0 + block as u8; 512]);
    }
    lane.done(&write(&file, 700, b"abc"));
    lane.done(&read(&file, 0, 4096));
    // Bytes past the end in the last block.
    let at = lane.block_at(1);
    lane.driver.patch(at + 191, &[0xDD; 321]);
    lane.done(&write(&file, 800, b"xy"));
    lane.done(&read(&file, 0, 4096));
    lane.done(&setattr(&file, Attributes::size(810), None));
    lane.done(&read(&file, 790, 40));
    lane.done(&setattr(&file, Attributes::size(805), None));
    lane.done(&setattr(&file, Attributes::size(2000), None));
    lane.done(&read(&file, 700, 1400));
    lane.done(&write(&file, 4096, b"z"));
    lane.done(&read(&file, 1500, 4096));
    let data: Vec<u8> = (0..5000u32).map(|at| (at * 7 + at / 256) as u8).collect();
    for (offset, length) in [
        (0, 512),
        (511, 2),
        (512, 513),
        (100, 1500),
        (0, 4096),
        (3000, 4097),
        (4096, 4096),
        (4096, 5000),
        (8191, 1),
    ] {
        lane.done(&write(&file, offset, &data[..length]));
    }
    for (offset, count) in [
        (0u64, 0u32),
        (0, 1),
        (1, 2),
        (1, 3),
        (0, 4096),
        (0, 4097),
        (0, u32::MAX),
        (4095, 4096),
        (4096, 4096),
        (4097, 4096),
        (8191, 1),
        (8191, 0),
        (8191, 2),
        (8192, 0),
        (8192, 1),
        (8193, 1),
        (1 << 32, 5),
        (1 << 63, 5),
        (u64::MAX, 0),
        (u64::MAX, 1),
        (u64::MAX, u32::MAX),
        (u64::MAX - 4095, 4096),
        (u64::MAX - 8191, 4096),
    ] {
        lane.done(&read(&file, offset, count));
    }
    for offset in [
        8192,
        8191,
        8193,
        1 << 32,
        (1 << 32) - 1,
        1 << 63,
        u64::MAX,
        u64::MAX - 1,
        u64::MAX - 2,
    ] {
        lane.expect(
            "WRITE FBIG: end past 8,192",
            &write(&file, offset, b"ab"),
            Status::FBIG,
        );
    }
    for offset in [4097, u64::MAX - 4095, u64::MAX - 4094] {
        lane.expect(
            "WRITE FBIG: end past 8,192",
            &write(&file, offset, &data[..4096]),
            Status::FBIG,
        );
        lane.expect(
            "WRITE FBIG: more than 4,096 bytes",
            &write(&file, offset, &data),
            Status::FBIG,
        );
    }
    for offset in [0, 8192, 8193, u64::MAX] {
        lane.done(&write(&file, offset, b""));
    }
    for (count, length) in [
        (0, 1),
        (1, 0),
        (4, 5),
        (5, 4),
        (4096, 4097),
        (4097, 4096),
        (u32::MAX, 3),
    ] {
        lane.expect(
            "WRITE INVAL: count unlike the data's length",
            &write_as(&file, u64::MAX, count, 1, &data[..length]),
            Status::INVAL,
        );
    }
    for stable in 0..=2 {
        lane.done(&write_as(&file, 5, 3, stable, b"abc"));
    }
    for (offset, count) in [(0, 0), (u64::MAX, u32::MAX), (5, 5)] {
        lane.done(&commit(&file, offset, count));
    }
    // Two blocks are left.
    let other = lane.create(&root, b"g", 0);
    lane.expect(
        "WRITE NOSPC: too few free blocks",
        &write(&other, 1024, b"x"),
        Status::NOSPC,
    );
    lane.done(&write(&other, 1023, b"x"));
    lane.expect(
        "WRITE NOSPC: no free block",
        &write(&other, 1024, b"x"),
        Status::NOSPC,
    );
    lane.expect(
        "WRITE FBIG: before NOSPC",
        &write(&other, 8192, b"x"),
        Status::FBIG,
    );
    lane.done(&setattr(&file, Attributes::size(512), None));
    lane.done(&write(&other, 1024, b"x"));
    lane.done(&read(&other, 0, 4096));
    lane.done(&setattr(&file, Attributes::size(0), None));
    lane.done(&read(&file, 0, 4096));
}

pub(super) fn making(runs: &mut Runs<'_>) {
    let mut lane = runs.open("making", (6, 6, 8));
    let root = lane.root();
    let plain = Attributes::default();
    let at = lane.block_at(0);
    lane.driver.patch(at, &[0xAB; 4096]);
    let all = Attributes {
        mode: Some(4095),
        uid: Some(7),
        gid: Some(8),
        size: Some(1300),
        atime: Time::Client(1, 2),
        mtime: Time::Client(3, 4),
    };
    lane.done(&guarded(&root, b"all", all));
    let existing = handle(STAMP, 1, 0);
    lane.done(&read(&existing, 0, 4096));
    lane.done(&unchecked(&root, b"plain", plain));
    let server = Attributes {
        size: None,
        atime: Time::Server,
        mtime: Time::Server,
        ..all
    };
    lane.done(&mkdir(&root, b"dir", server));
    let unsized_all = Attributes { size: None, ..all };
    let directory = handle(STAMP, 3, 0);
    lane.done(&mkdir(&directory, b"inner", unsized_all));
    lane.done(&unchecked(&root, b"all", unsized_all));
    for size in [1300, 100, 2000, 0, 1] {
        let sized = Attributes {
            size: Some(size),
            ..all
        };
        lane.done(&unchecked(&root, b"all", sized));
    }
    lane.done(&readdir(&root, 0, 0, 4096));
    let bad_time = Attributes {
        atime: Time::Client(0, 1_000_000_000),
        ..plain
    };
    let other_bad_time = Attributes {
        mtime: Time::Client(0, 1_000_000_000),
        ..plain
    };
    for name in [&b"."[..], b".."] {
        for attributes in [plain, Attributes::mode(4096), Attributes::size(9999)] {
            lane.expect(
                "CREATE EXIST: dots, GUARDED",
                &guarded(&root, name, attributes),
                Status::EXIST,
            );
            lane.expect(
                "CREATE EXIST: dots, UNCHECKED",
                &unchecked(&root, name, attributes),
                Status::EXIST,
            );
            lane.expect(
                "MKDIR EXIST: dots",
                &mkdir(&root, name, attributes),
                Status::EXIST,
            );
        }
        lane.expect(
            "CREATE EXIST: dots, EXCLUSIVE",
            &exclusive(&root, name, VERIFIER),
            Status::EXIST,
        );
    }
    for name in [&b"all"[..], b"dir", b"new"] {
        for (label, attributes) in [
            ("mode", Attributes::mode(4096)),
            ("access time", bad_time),
            ("modification time", other_bad_time),
            ("size", Attributes::size(8193)),
            ("size", Attributes::size(u64::MAX)),
        ] {
            lane.expect(
                &format!("CREATE INVAL: GUARDED, {label}"),
                &guarded(&root, name, attributes),
                Status::INVAL,
            );
            lane.expect(
                &format!("CREATE INVAL: UNCHECKED, {label}"),
                &unchecked(&root, name, attributes),
                Status::INVAL,
            );
            lane.expect(
                &format!("MKDIR INVAL: {label}"),
                &mkdir(&root, name, attributes),
                Status::INVAL,
            );
        }
        for size in [0, 1, 8192] {
            lane.expect(
                "MKDIR INVAL: a size given",
                &mkdir(&root, name, Attributes::size(size)),
                Status::INVAL,
            );
        }
    }
    for name in [&b"all"[..], b"dir"] {
        lane.expect(
            "CREATE EXIST: GUARDED",
            &guarded(&root, name, plain),
            Status::EXIST,
        );
        lane.expect(
            "CREATE EXIST: EXCLUSIVE",
            &exclusive(&root, name, VERIFIER),
            Status::EXIST,
        );
        lane.expect(
            "MKDIR EXIST: name exists",
            &mkdir(&root, name, plain),
            Status::EXIST,
        );
    }
    for attributes in [plain, Attributes::size(0), Attributes::size(8192)] {
        lane.expect(
            "CREATE EXIST: UNCHECKED on a directory",
            &unchecked(&root, b"dir", attributes),
            Status::EXIST,
        );
    }
    lane.expect(
        "CREATE NOSPC: UNCHECKED growth of an existing file",
        &unchecked(&root, b"all", Attributes::size(4097)),
        Status::NOSPC,
    );
    lane.expect(
        "CREATE NOSPC: too few blocks for the size",
        &guarded(&root, b"new", Attributes::size(3585)),
        Status::NOSPC,
    );
    lane.done(&guarded(&root, b"new", Attributes::size(3584)));
    lane.expect(
        "CREATE NOSPC: no available object",
        &guarded(&root, b"more", plain),
        Status::NOSPC,
    );
    lane.expect(
        "MKDIR NOSPC: no available object",
        &mkdir(&root, b"more", plain),
        Status::NOSPC,
    );
    lane.expect(
        "CREATE EXIST: before NOSPC",
        &guarded(&root, b"new", Attributes::size(8192)),
        Status::EXIST,
    );
    lane.done(&readdir(&root, 0, 0, 4096));
    lane.done(&fsstat(&root));
}

pub(super) fn removing(runs: &mut Runs<'_>) {
    let mut lane = runs.open("removing", (8, 8, 8));
    let root = lane.root();
    let file = lane.create(&root, b"f", 700);
    lane.done(&write(&file, 0, &[9; 700]));
    let directory = lane.mkdir(&root, b"d");
    let inner = lane.mkdir(&directory, b"inner");
    lane.create(&inner, b"f", 10);
    for (label, request, status) in [
        ("REMOVE ACCES: dot", remove(&root, b"."), Status::ACCES),
        ("REMOVE ACCES: dots", remove(&root, b".."), Status::ACCES),
        ("REMOVE NOENT", remove(&root, b"none"), Status::NOENT),
        (
            "REMOVE NOENT: other directory's name",
            remove(&root, b"inner"),
            Status::NOENT,
        ),
        (
            "REMOVE ACCES: directory",
            remove(&root, b"d"),
            Status::ACCES,
        ),
        ("RMDIR INVAL: dot", rmdir(&root, b"."), Status::INVAL),
        ("RMDIR INVAL: dots", rmdir(&directory, b".."), Status::INVAL),
        ("RMDIR NOENT", rmdir(&root, b"none"), Status::NOENT),
        ("RMDIR NOTDIR: file", rmdir(&root, b"f"), Status::NOTDIR),
        (
            "RMDIR NOTEMPTY: holds a directory",
            rmdir(&root, b"d"),
            Status::NOTEMPTY,
        ),
        (
            "RMDIR NOTEMPTY: holds a file",
            rmdir(&directory, b"inner"),
            Status::NOTEMPTY,
        ),
    ] {
        lane.expect(label, &request, status);
    }
    let at = lane.block_at(1);
    lane.driver.patch(at + 188, &[0x77; 324]);
    lane.done(&remove(&root, b"f"));
    lane.expect(
        "GETATTR STALE: removed object",
        &getattr(&file),
        Status::STALE,
    );
    lane.done(&fsstat(&root));
    let again = lane.create(&root, b"f", 100);
    assert_eq!(again, handle(STAMP, 1, 1));
    lane.expect(
        "GETATTR STALE: reused record",
        &getattr(&file),
        Status::STALE,
    );
    lane.done(&getattr(&again));
    lane.done(&remove(&inner, b"f"));
    lane.done(&rmdir(&directory, b"inner"));
    lane.expect(
        "LOOKUP STALE: removed directory",
        &lookup(&inner, b".."),
        Status::STALE,
    );
    lane.done(&rmdir(&root, b"d"));
    lane.done(&remove(&root, b"f"));
    lane.done(&readdir(&root, 0, 0, 4096));
    // The lowest object, name and blocks are taken again.
    for name in [b"a", b"b", b"c", b"e"] {
        lane.create(&root, name, 600);
    }
    lane.done(&remove(&root, b"c"));
    lane.done(&remove(&root, b"a"));
    let file = lane.create(&root, b"g", 2000);
    lane.done(&getattr(&file));
    lane.mkdir(&root, b"h");
    lane.done(&readdir(&root, 0, 0, 4096));
}

pub(super) fn renaming(runs: &mut Runs<'_>) {
    let mut lane = runs.open("renaming", (10, 8, 8));
    let root = lane.root();
    let file = lane.create(&root, b"f", 10);
    let outer = lane.mkdir(&root, b"outer");
    let middle = lane.mkdir(&outer, b"middle");
    let inner = lane.mkdir(&middle, b"inner");
    lane.create(&inner, b"there", 0);
    let stale = handle(STAMP, 9, 0);
    let bad = vec![1];
    let long = [b'n'; 33];
    let cases: Vec<(&str, Request, Status)> = vec![
        (
            "RENAME STALE: first handle",
            rename(&stale, b"", &bad, b""),
            Status::STALE,
        ),
        (
            "RENAME BADHANDLE: first handle",
            rename(&bad, b"", &stale, b""),
            Status::BADHANDLE,
        ),
        (
            "RENAME NOTDIR: first handle",
            rename(&file, b"", &bad, b""),
            Status::NOTDIR,
        ),
        (
            "RENAME BADHANDLE: second handle",
            rename(&root, b"", &bad, b""),
            Status::BADHANDLE,
        ),
        (
            "RENAME STALE: second handle",
            rename(&root, b"", &stale, b""),
            Status::STALE,
        ),
        (
            "RENAME NOTDIR: second handle",
            rename(&root, b"", &file, b""),
            Status::NOTDIR,
        ),
        (
            "RENAME NAMETOOLONG: first name",
            rename(&root, &long, &outer, b""),
            Status::NAMETOOLONG,
        ),
        (
            "RENAME ACCES: first name",
            rename(&root, b"", &outer, &long),
            Status::ACCES,
        ),
        (
            "RENAME ACCES: first name",
            rename(&root, b"a/", &outer, &long),
            Status::ACCES,
        ),
        (
            "RENAME NAMETOOLONG: second name",
            rename(&root, b".", &outer, &long),
            Status::NAMETOOLONG,
        ),
        (
            "RENAME ACCES: second name",
            rename(&root, b".", &outer, b"a/"),
            Status::ACCES,
        ),
        (
            "RENAME INVAL: first name dot",
            rename(&root, b".", &outer, b"x"),
            Status::INVAL,
        ),
        (
            "RENAME INVAL: first name dots",
            rename(&outer, b"..", &outer, b"x"),
            Status::INVAL,
        ),
        (
            "RENAME INVAL: second name dot, before NOENT",
            rename(&root, b"none", &outer, b"."),
            Status::INVAL,
        ),
        (
            "RENAME INVAL: second name dots",
            rename(&root, b"f", &outer, b".."),
            Status::INVAL,
        ),
        (
            "RENAME NOENT: before the target",
            rename(&root, b"none", &root, b"f"),
            Status::NOENT,
        ),
        (
            "RENAME EXIST: file over directory",
            rename(&root, b"f", &root, b"outer"),
            Status::EXIST,
        ),
        (
            "RENAME OK: onto itself",
            rename(&root, b"f", &root, b"f"),
            Status::OK,
        ),
        (
            "RENAME OK: directory onto itself",
            rename(&root, b"outer", &root, b"outer"),
            Status::OK,
        ),
        (
            "RENAME INVAL: into itself, before the target",
            rename(&root, b"outer", &outer, b"middle"),
            Status::INVAL,
        ),
        (
            "RENAME INVAL: far below itself, before the target",
            rename(&root, b"outer", &inner, b"there"),
            Status::INVAL,
        ),
        (
            "RENAME INVAL: into itself",
            rename(&root, b"outer", &outer, b"x"),
            Status::INVAL,
        ),
        (
            "RENAME INVAL: below itself",
            rename(&root, b"outer", &middle, b"x"),
            Status::INVAL,
        ),
        (
            "RENAME INVAL: far below itself",
            rename(&root, b"outer", &inner, b"x"),
            Status::INVAL,
        ),
        (
            "RENAME INVAL: far below itself",
            rename(&outer, b"middle", &inner, b"x"),
            Status::INVAL,
        ),
        (
            "RENAME OK: directory in its directory",
            rename(
                &outer,
                b"middle",
                &outer,
                b"a-longer-name-of-thirty-two-byte",
            ),
            Status::OK,
        ),
        (
            "RENAME OK: shorter name",
            rename(&outer, b"a-longer-name-of-thirty-two-byte", &outer, b"m"),
            Status::OK,
        ),
        (
            "RENAME OK: directory up",
            rename(&middle, b"inner", &root, b"x"),
            Status::OK,
        ),
        (
            "RENAME OK: file down",
            rename(&root, b"f", &inner, b"x"),
            Status::OK,
        ),
        (
            "RENAME OK: directory aside",
            rename(&root, b"outer", &inner, b"y"),
            Status::OK,
        ),
        (
            "RENAME INVAL: below itself after moves",
            rename(&root, b"x", &middle, b"z"),
            Status::INVAL,
        ),
        (
            "RENAME OK: same name elsewhere",
            rename(&inner, b"x", &middle, b"x"),
            Status::OK,
        ),
    ];
    for (label, request, status) in cases {
        lane.expect(label, &request, status);
        if status == Status::OK {
            lane.done(&getattr(&root));
            lane.done(&getattr(&file));
        }
    }
    for object in [&root, &outer, &middle, &inner] {
        lane.done(&getattr(object));
        lane.done(&lookup(object, b".."));
        lane.done(&readdir(object, 0, 0, 4096));
    }
    // A chain of directories: the first below the last.
    let mut lane = runs.open("a chain of directories", (20, 20, 0));
    let mut chain = vec![root.clone()];
    for _ in 0..18 {
        let next = lane.mkdir(chain.last().unwrap(), b"d");
        chain.push(next);
    }
    for below in [1, 2, 9, 18] {
        lane.expect(
            "RENAME INVAL: below itself in a chain",
            &rename(&root, b"d", &chain[below], b"e"),
            Status::INVAL,
        );
    }
    lane.done(&rename(&chain[9], b"d", &root, b"half"));
    lane.done(&rename(&root, b"d", &chain[18], b"e"));
    lane.done(&lookup(&chain[1], b".."));
    lane.done(&lookup(&chain[10], b".."));
}

pub(super) fn listing(runs: &mut Runs<'_>) {
    let mut lane = runs.open("listing", (10, 12, 0));
    let root = lane.root();
    lane.create(&root, b"one", 0);
    let directory = lane.mkdir(&root, b"d");
    lane.create(&directory, b"inner", 0);
    lane.create(&root, b"three", 0);
    lane.done(&remove(&root, b"one"));
    lane.create(&directory, b"exactly-thirty-two-bytes-of-name", 0);
    lane.create(&directory, b"four", 0);
    for object in [&root, &directory] {
        for cookie in [
            0,
            1,
            2,
            3,
            4,
            5,
            6,
            7,
            8,
            14,
            15,
            130,
            131,
            1 << 32,
            (1 << 32) + 1,
            u64::MAX - 2,
            u64::MAX,
        ] {
            for count in [4096, 136, 104] {
                lane.send(&readdir(object, cookie, 0, count));
            }
        }
        for count in 100..=300 {
            if count % 4 == 0 || count % 4 == 3 {
                lane.send(&readdir(object, 0, 0, count));
            }
        }
    }
    lane.expect(
        "READDIR TOOSMALL: below 104",
        &readdir(&root, 0, 0, 103),
        Status::TOOSMALL,
    );
    lane.expect(
        "READDIR TOOSMALL: below 104, nothing remains",
        &readdir(&root, 99, 0, 103),
        Status::TOOSMALL,
    );
    lane.expect(
        "READDIR TOOSMALL: first entry does not fit",
        &readdir(&directory, 2, 0, 104 + 55),
        Status::TOOSMALL,
    );
    lane.done(&readdir(&directory, 2, 0, 104 + 56));
    for verifier in [1, 1 << 63, u64::MAX, 1 << 32] {
        for cookie in [0, 1] {
            lane.expect(
                "READDIR BAD_COOKIE: verifier not zero",
                &readdir(&root, cookie, verifier, 0),
                Status::BAD_COOKIE,
            );
        }
    }
    for count in [0, u32::MAX, 4097] {
        lane.send(&readdir(&root, 0, 0, count));
    }
}

pub(super) fn file_system_numbers(runs: &mut Runs<'_>) {
    let mut lane = runs.open("file system numbers", (8, 8, 8));
    let root = lane.root();
    let file = lane.create(&root, b"f", 513);
    lane.mkdir(&root, b"d");
    for object in [&root, &file] {
        lane.done(&fsstat(object));
        lane.done(&fsinfo(object));
        lane.done(&pathconf(object));
    }
    lane.send(&Request::Null);
}
