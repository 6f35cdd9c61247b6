//! The answers of the entry points and the RPC outcomes.

mod common;
use common::*;
use peer::generator::encode::{Header, Request};

/// Answer and whether every lent byte stayed.
fn entry(call: &[u8], store: &[u8], space: usize, nanoseconds: u32) -> (u32, u32, bool) {
    let mut own = store.to_vec();
    let mut reply = vec![SPARE; space];
    let answer = peer::call(call, &mut own, &mut reply, 9, nanoseconds, 3);
    let same = own == store && reply.iter().all(|&byte| byte == SPARE);
    (answer.number, answer.length, same)
}

#[test]
fn refusals_in_their_order() {
    let good = Lane::new(2, 2, 2).store;
    let bad = vec![0u8; 200];
    let call = Request::Null.call(1);
    let long = vec![0u8; 8193];
    assert_eq!(entry(&long, &bad, 4223, 1_000_000_000), (2, 0, true));
    assert_eq!(entry(&long, &bad, 0, u32::MAX), (2, 0, true));
    assert_eq!(entry(&long, &bad, 4224, 1_000_000_000), (3, 0, true));
    assert_eq!(entry(&call, &good, 4224, 1_000_000_000), (3, 0, true));
    assert_eq!(entry(&long, &bad, 4224, 999_999_999), (4, 0, true));
    assert_eq!(entry(&long, &good, 4224, 0), (4, 0, true));
    assert_eq!(entry(&[], &bad, 4224, 0), (1, 0, true));
    assert_eq!(entry(&call, &bad, 4224, 0), (1, 0, true));
    assert_eq!(entry(&[], &good, 4224, 0), (5, 0, true));
    assert_eq!(entry(&call, &good, 4224, 999_999_999), (0, 24, false));
    // 8,192 bytes are read: here a header with bytes left over.
    let mut full = Request::Null.call(1);
    full.resize(8192, 0);
    assert_eq!(entry(&full, &good, 4224, 0), (0, 24, false));
}

#[test]
fn format_answers() {
    let mut store = vec![0xA5; 20 + RECORD + 44 + 512];
    let same = |store: &[u8]| store.iter().all(|&byte| byte == 0xA5);
    let cases = [
        (1, 1, 1, 1_000_000_000, 3),
        (0, 0, 0, u32::MAX, 3),
        (0, 1, 1, 0, 6),
        (65, 1, 1, 0, 6),
        (1, 129, 1, 0, 6),
        (1, 1, 1025, 0, 6),
        (1, 1, 0, 0, 6),
        (1, 0, 1, 0, 6),
        (2, 1, 1, 0, 6),
        (u32::MAX, u32::MAX, u32::MAX, 0, 6),
    ];
    for (objects, names, blocks, nanoseconds, wanted) in cases {
        let answer = peer::format(&mut store, 1, objects, names, blocks, 0, nanoseconds);
        assert_eq!((answer.number, answer.length), (wanted, 0));
        assert!(same(&store));
    }
    let answer = peer::format(&mut store, 0xFFFF_FFFF, 1, 1, 1, u32::MAX, 999_999_999);
    assert_eq!((answer.number, answer.length), (0, 0));
    let mut wanted = vec![0u8; store.len()];
    let mut at = 0;
    for word in [
        1,
        u32::MAX,
        1,
        2,
        0,
        493,
        0,
        0,
        0,
        u32::MAX,
        999_999_999,
        u32::MAX,
        999_999_999,
        u32::MAX,
        999_999_999,
    ] {
        wanted[at..at + 4].copy_from_slice(&u32::to_be_bytes(word));
        at += 4;
    }
    wanted[at..at + 32].fill(0xFF);
    // No verifier, then the counts of names and blocks.
    let names_at = 12 + RECORD;
    assert_eq!(at + 32 + 12, names_at);
    wanted[names_at + 3] = 1;
    wanted[names_at + 4 + 44 + 3] = 1;
    assert_eq!(store, wanted);
    // A second format keeps no old generation.
    store[12 + 4] = 9;
    assert_eq!(peer::format(&mut store, 1, 1, 1, 1, 0, 0).number, 0);
    assert_eq!(store[12 + 4], 0);
    assert_eq!(peer::format(&mut [], 1, 1, 0, 0, 0, 0).number, 6);
}

#[test]
fn check_answers() {
    let good = Lane::new(64, 128, 3).store;
    assert_eq!(
        (peer::check(&good).number, peer::check(&good).length),
        (0, 0)
    );
    for length in [0, 1, 4, 8, 11, 12, 15, 16, 100, good.len() - 1] {
        let answer = peer::check(&good[..length]);
        assert_eq!((answer.number, answer.length), (1, 0));
    }
    let mut longer = good.clone();
    longer.push(0);
    assert_eq!(peer::check(&longer).number, 1);
}

/// The answer of a call to a small valid store.
fn header_answer(call: &[u8]) -> u32 {
    let store = Lane::new(1, 0, 0).store;
    let (number, length, same) = entry(call, &store, 4224, 0);
    assert_eq!(same, number != 0);
    assert_eq!(length == 0, number != 0);
    number
}

#[test]
fn no_complete_header() {
    let full = Header {
        credential: (1, vec![4; 5]),
        verifier: (77, vec![6; 3]),
        ..Header::new(1, 0)
    }
    .encode();
    for length in 0..full.len() {
        let wanted = if length < 8 { 5 } else { 8 };
        assert_eq!(header_answer(&full[..length]), wanted, "length {length}");
    }
    assert_eq!(header_answer(&full), 0);
    // The message type.
    for kind in [1, 2, 0x0100_0000, u32::MAX] {
        let header = Header {
            kind,
            ..Header::new(1, 0)
        };
        assert_eq!(header_answer(&header.encode()), 7);
        assert_eq!(header_answer(&header.encode()[..8]), 7);
    }
    // Any pad bytes of the credential and of the verifier make a header.
    for at in [28 + 4 + 5, 28 + 4 + 7, full.len() - 1] {
        let mut padded = full.clone();
        padded[at] = 1;
        assert_eq!(header_answer(&padded), 0, "padding at {at}");
    }
}

#[test]
fn long_credentials() {
    for (length, wanted) in [(0, 0), (399, 0), (400, 0), (401, 9), (404, 9), (2000, 9)] {
        for flavor in [0, 1, 6, u32::MAX] {
            let credential = Header {
                credential: (flavor, vec![8; length]),
                ..Header::new(1, 0)
            };
            assert_eq!(header_answer(&credential.encode()), wanted);
            let verifier = Header {
                verifier: (flavor, vec![8; length]),
                ..Header::new(1, 0)
            };
            assert_eq!(header_answer(&verifier.encode()), wanted);
        }
    }
    let mut huge = Header::new(1, 0).encode();
    huge[28..32].fill(0xFF);
    assert_eq!(header_answer(&huge), 9);
}

#[test]
fn rpc_outcomes_in_their_order() {
    let mut lane = Lane::new(2, 2, 2);
    // Another RPC version is denied as soon as 12 bytes are there.
    for version in [0, 1, 3, 0x0200_0000, u32::MAX] {
        let header = Header {
            rpc_version: version,
            program: 0,
            ..Header::new(0xAABB_CCDD, 99)
        };
        for length in [12, 13, 24, 40] {
            let got = lane.raw(&header.encode()[..length]);
            assert_eq!(words(&got.bytes), [0xAABB_CCDD, 1, 1, 0, 2, 2]);
        }
    }
    let outcome = |lane: &mut Lane, header: &Header, rest: &[u8]| -> Vec<u32> {
        words(&lane.raw(&header.call(rest)).bytes)
    };
    let header = Header {
        program: 100_005,
        version: 1,
        ..Header::new(5, 99)
    };
    assert_eq!(outcome(&mut lane, &header, &[1]), [5, 1, 0, 0, 0, 1]);
    let header = Header {
        version: 2,
        ..Header::new(5, 99)
    };
    assert_eq!(outcome(&mut lane, &header, &[1]), [5, 1, 0, 0, 0, 2, 3, 3]);
    let header = Header {
        version: 4,
        ..Header::new(5, 0)
    };
    assert_eq!(outcome(&mut lane, &header, &[]), [5, 1, 0, 0, 0, 2, 3, 3]);
    for number in [22, 23, 0x0100_0000, u32::MAX] {
        let header = Header::new(5, number);
        assert_eq!(outcome(&mut lane, &header, &[1]), [5, 1, 0, 0, 0, 3]);
    }
    // NULL with bytes after the header.
    for count in [1, 2, 3, 4, 8] {
        let header = Header::new(5, 0);
        assert_eq!(
            outcome(&mut lane, &header, &vec![0; count]),
            [5, 1, 0, 0, 0, 4]
        );
    }
}

#[test]
fn unserved_procedures() {
    let mut lane = Lane::new(2, 2, 2);
    for (number, zeros) in [(5, 1), (10, 2), (11, 2), (17, 1)] {
        for arguments in [vec![], vec![1], root(), vec![0xFF; 60]] {
            let got = lane.raw(&Header::new(6, number).call(&arguments));
            let mut wanted = vec![6, 1, 0, 0, 0, 0, status::NOTSUPP];
            wanted.resize(7 + zeros, 0);
            assert_eq!(words(&got.bytes), wanted);
        }
    }
}
