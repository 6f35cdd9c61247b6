//! The examples of document 01.

mod common;
use common::*;
use peer::generator::encode::{handle, Attributes, Request};

#[test]
fn null_with_xid_7() {
    let mut lane = Lane::new(1, 0, 0);
    let call: Vec<u8> = [7u32, 0, 2, 100003, 3, 0, 0, 0, 0, 0]
        .iter()
        .flat_map(|word| word.to_be_bytes())
        .collect();
    assert_eq!(call, Request::Null.call(7));
    let got = lane.raw(&call);
    assert_eq!(words(&got.bytes), [7, 1, 0, 0, 0, 0]);
}

#[test]
fn reply_lengths() {
    let mut lane = Lane::new(8, 8, 8);
    assert_eq!(lane.send(&getattr(&root())).bytes.len(), 112);
    assert_eq!(lane.send(&getattr(&handle(STAMP, 1, 0))).bytes.len(), 28);
    assert_eq!(lane.status(&getattr(&handle(STAMP, 1, 0))), status::STALE);
    let made = lane.send(&create(&root(), b"a", Attributes::default()));
    assert_eq!(made.bytes.len(), 252);
    assert_eq!(lane.send(&lookup(&root(), b"a")).bytes.len(), 220);
    let file = handle(STAMP, 1, 0);
    assert_eq!(lane.send(&write(&file, 0, b"xyz")).bytes.len(), 160);
}

#[test]
fn smallest_store() {
    let mut lane = Lane::new(1, 0, 0);
    assert_eq!(lane.store.len(), 112);
    let request = mkdir(&root(), b"d", Attributes::default());
    assert_eq!(lane.status(&request), status::NOSPC);
}

#[test]
fn largest_store() {
    assert_eq!(Lane::new(64, 128, 1024).store.len(), 535_828);
}

#[test]
fn readdir_of_a_new_root() {
    let mut lane = Lane::new(4, 4, 4);
    let got = lane.send(&readdir(&root(), 0, 160));
    assert_eq!(got.bytes.len(), 188);
    let mut got = got;
    assert_eq!(got.status(), status::OK);
    got.optional_attr().unwrap();
    assert_eq!(
        words(&got.bytes[got.at..]),
        [
            0,
            0,
            1,
            0,
            1,
            1,
            0x2E00_0000,
            0,
            1,
            1,
            0,
            1,
            2,
            0x2E2E_0000,
            0,
            2,
            0,
            1
        ]
    );
    for count in 132..=159 {
        let (answer, mut got) = lane.ask(&readdir(&root(), 0, count));
        assert_eq!(answer, status::OK);
        got.optional_attr().unwrap();
        assert_eq!(
            words(&got.bytes[got.at..]),
            [0, 0, 1, 0, 1, 1, 0x2E00_0000, 0, 1, 0, 0]
        );
    }
    let (answer, mut got) = lane.ask(&readdir(&root(), 0, 131));
    assert_eq!(answer, status::TOOSMALL);
    got.optional_attr().unwrap();
    got.end();
    let (answer, mut got) = lane.ask(&readdir(&root(), 2, 104));
    assert_eq!(answer, status::OK);
    got.optional_attr().unwrap();
    assert_eq!(words(&got.bytes[got.at..]), [0, 0, 0, 1]);
}

#[test]
fn write_at_the_end_of_the_largest_file() {
    let mut lane = Lane::new(2, 2, 16);
    let file = lane.create(&root(), b"f");
    assert_eq!(lane.write(&file, 8191, b"x"), status::OK);
    assert_eq!(lane.attr(&file).size, 8192);
    assert_eq!(lane.write(&file, 8192, b"x"), status::FBIG);
    assert_eq!(lane.write(&file, 8192, b""), status::OK);
    assert_eq!(lane.attr(&file).size, 8192);
}

#[test]
fn one_name_is_the_end_of_another() {
    let mut lane = Lane::new(3, 3, 0);
    let long = lane.create(&root(), b"0123456789");
    let short = lane.create(&root(), b"123456789");
    assert_ne!(long, short);
    for (name, wanted) in [(&b"0123456789"[..], long), (b"123456789", short)] {
        let (answer, mut got) = lane.ask(&lookup(&root(), name));
        assert_eq!(answer, status::OK);
        assert_eq!(got.opaque(), wanted);
    }
    assert_eq!(lane.status(&lookup(&root(), b"012345678")), status::NOENT);
    assert_eq!(lane.status(&lookup(&root(), b"23456789")), status::NOENT);
}
