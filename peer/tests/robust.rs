//! Any bytes may arrive: no panic, and refusals change nothing.

mod common;
use common::*;
use peer::generator::encode::{Attributes, Request};
use peer::generator::random::Random;

fn deep_call(random: &mut Random, file: &[u8]) -> Vec<u8> {
    let far = random.pick(&[0, 1, 511, 8191, 8192, u64::MAX, u64::MAX - 4095, 1 << 63]);
    let request = match random.below(11) {
        0 => getattr(file),
        1 => setattr(file, Attributes::size(far), Some((1, 2))),
        2 => lookup(&root(), b"file"),
        3 => Request::Read {
            file: file.to_vec(),
            offset: far,
            count: random.word(),
        },
        4 => write(file, far, b"0123456789"),
        5 => unchecked(&root(), b"file", Attributes::size(far)),
        6 => mkdir(&root(), b"dir", Attributes::default()),
        7 => rename(&root(), b"file", &root(), b"dir"),
        9 => link(file, &root(), b"link"),
        8 => Request::Readdir {
            directory: root(),
            cookie: far,
            verifier: [0; 8],
            count: random.word(),
        },
        _ => Request::Commit {
            file: file.to_vec(),
            offset: far,
            count: u32::MAX,
        },
    };
    request.call(random.word())
}

#[test]
fn changed_calls_and_stores() {
    let mut random = Random::new(7);
    let mut lane = Lane::new(6, 6, 6);
    let file = lane.create(&root(), b"file");
    assert_eq!(lane.write(&file, 0, &[1; 600]), 0);
    let records = lane.block_at(0);
    let start = lane.store.clone();
    let mut numbers = [0usize; 10];
    for round in 0..60_000 {
        if round % 50 == 0 {
            lane.store = start.clone();
        }
        let mut call = deep_call(&mut random, &file);
        for _ in 0..random.below(3) {
            let at = random.below(call.len());
            call[at] = random.next() as u8;
        }
        if random.once_in(8) {
            call.truncate(random.below(call.len() + 1));
        }
        let kept = lane.store.clone();
        if random.once_in(4) {
            let at = random.below(records);
            lane.store[at] ^= 1 << random.below(8);
        }
        let space = random.pick(&[4224, 4224, 4224, 4225, 5000, 4223, 0]);
        let nanoseconds = random.pick(&[0, 5, 999_999_999, 1_000_000_000]);
        let mut reply = vec![SPARE; space];
        let before = lane.store.clone();
        let valid = peer::check(&before).number == 0;
        let answer = peer::call(&call, &mut lane.store, &mut reply, 3, nanoseconds, 4);
        numbers[answer.number as usize] += 1;
        let length = answer.length as usize;
        assert!(reply[length..].iter().all(|&byte| byte == SPARE));
        let broken = valid && length <= 24;
        assert!(answer.offset == 0 || broken && answer.offset as usize <= call.len());
        if answer.number != 0 {
            assert_eq!(length, 0);
            assert!(before == lane.store);
        } else {
            assert!(valid && (24..=4224).contains(&length) && length.is_multiple_of(4));
            assert_eq!(peer::check(&lane.store).number, 0);
        }
        if !valid {
            lane.store = kept;
        }
    }
    // No call is too long, and 6 is no answer to a call.
    assert!(numbers
        .iter()
        .enumerate()
        .all(|(at, &count)| [4, 6].contains(&at) == (count == 0)));
}

#[test]
fn random_bytes_everywhere() {
    let mut random = Random::new(8);
    for _ in 0..20_000 {
        let length = random.pick(&[0, 1, 7, 8, 11, 12, 40, 200, 8192, 8193]);
        let call = random.bytes(length);
        let length = random.below(400);
        let mut store = random.bytes(length);
        let mut reply = vec![SPARE; 4224];
        let answer = peer::call(&call, &mut store, &mut reply, random.word(), 0, 0);
        assert_eq!(answer.number, if call.len() > 8192 { 4 } else { 1 });
        let counts = [
            random.below(70) as u32,
            random.below(135) as u32,
            random.below(3) as u32,
        ];
        peer::format(&mut store, 1, counts[0], counts[1], counts[2], 1, 1);
    }
}
