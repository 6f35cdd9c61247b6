//! Measures the static libraries `libnfs3.a` and `libmount3.a` against the
//! peer.
//!
//! Usage: bench
//!
//! Both work on warm buffers of their own, in turns; the best of several
//! repetitions counts. The last line is the largest ratio of the first table.
//! Then come the converter, the check of full stores whose names could be hard
//! on a hash table, and a deep tree.

#[cfg(nfs3_library)]
#[path = "shared/library.rs"]
mod library;

#[cfg(not(nfs3_library))]
fn main() -> std::process::ExitCode {
    eprintln!(
        "bench: there is no library at {}; build it or set NFS3_LIBRARY to its folder",
        env!("NFS3_LIBRARY_FILE")
    );
    std::process::ExitCode::from(2)
}

#[cfg(nfs3_library)]
fn main() {
    measuring::main();
}

#[cfg(nfs3_library)]
mod measuring {
    use std::hint::black_box;
    use std::time::{Duration, Instant};

    use super::library;
    use peer::generator::driver::{Call, Format, Mount};
    use peer::generator::encode::{handle, Attributes, Request};
    use peer::generator::lane::*;
    use peer::generator::mounts::{self, alike_rows, tables};
    use peer::generator::old_images::old_image;
    use peer::generator::padding::{Padded, ARGUMENTS};
    use peer::layout::Shape;
    use peer::numbers::{mount_procedure, Status};
    use peer::{Answer, MOUNT_REPLY_SPACE};

    const STAMP: u32 = 7;
    /// The verifier of an EXCLUSIVE CREATE.
    const VERIFIER: [u8; 8] = *b"verifier";
    const REPETITIONS: usize = 60;
    /// Each repetition takes about this long.
    const SLICE: Duration = Duration::from_micros(400);

    /// The entry point for calls of one implementation.
    type Entry = fn(&Call<'_>, &mut [u8], &mut [u8]) -> Answer;

    fn peer_call(call: &Call<'_>, store: &mut [u8], reply: &mut [u8]) -> Answer {
        peer::call(
            call.bytes,
            store,
            reply,
            call.seconds,
            call.nanoseconds,
            call.verifier,
        )
    }

    /// One of the two implementations with its own buffers.
    struct Side {
        name: &'static str,
        call: Entry,
        store: Vec<u8>,
        reply: Vec<u8>,
        seconds: u32,
    }

    impl Side {
        fn new(name: &'static str, call: Entry, store: &[u8]) -> Side {
            Side {
                name,
                call,
                store: store.to_vec(),
                reply: vec![0; 4224],
                seconds: 1,
            }
        }

        /// Makes one call.
        fn make(&mut self, bytes: &[u8]) -> Answer {
            self.seconds = self.seconds.wrapping_add(1);
            let call = Call {
                bytes: black_box(bytes),
                seconds: self.seconds,
                nanoseconds: 5,
                verifier: 9,
                space: self.reply.len(),
            };
            black_box((self.call)(&call, &mut self.store, &mut self.reply))
        }

        /// Makes the calls one after the other.
        fn round(&mut self, calls: &[Vec<u8>]) {
            for bytes in calls {
                self.make(bytes);
            }
        }

        /// Fails unless every call of the round is answered with the status.
        fn try_round(&mut self, calls: &[Vec<u8>], wanted: Status) {
            for bytes in calls {
                self.round(std::slice::from_ref(bytes));
                let status = status_of(&self.reply);
                let name = self.name;
                assert_eq!(status, Some(wanted.0), "{name}: another status");
            }
        }
    }

    /// The best time of one turn of each, taken alternately.
    fn best_of_both(mut first: impl FnMut(), mut second: impl FnMut()) -> (f64, f64) {
        let turns = |work: &mut dyn FnMut()| {
            let start = Instant::now();
            let mut count = 0u32;
            while start.elapsed() < SLICE {
                work();
                count += 1;
            }
            count.max(1)
        };
        let (first_turns, second_turns) = (turns(&mut first), turns(&mut second));
        let time = |work: &mut dyn FnMut(), turns: u32| {
            let start = Instant::now();
            for _ in 0..turns {
                work();
            }
            start.elapsed().as_secs_f64() * 1e9 / f64::from(turns)
        };
        let mut best = (f64::MAX, f64::MAX);
        for _ in 0..REPETITIONS {
            best.0 = best.0.min(time(&mut first, first_turns));
            best.1 = best.1.min(time(&mut second, second_turns));
        }
        best
    }

    /// The times of both checks of a store.
    fn check_times(store: &[u8]) -> (f64, f64) {
        best_of_both(
            || {
                black_box(peer::check(black_box(store)));
            },
            || {
                black_box(library::check(black_box(store)));
            },
        )
    }

    /// How many times as long a check takes for the second store.
    fn factor(check: fn(&[u8]) -> Answer, first: &[u8], second: &[u8]) -> f64 {
        let (one, other) = best_of_both(
            || {
                black_box(check(black_box(first)));
            },
            || {
                black_box(check(black_box(second)));
            },
        );
        other / one
    }

    /// The times of both for the calls, made on the store again and again. Each
    /// is answered with the status.
    fn call_times(store: &[u8], calls: &[Vec<u8>], wanted: Status) -> (f64, f64) {
        let mut own = Side::new("peer", peer_call, store);
        let mut other = Side::new("library", library::call, store);
        own.try_round(calls, wanted);
        other.try_round(calls, wanted);
        best_of_both(|| own.round(calls), || other.round(calls))
    }

    /// The times of both for a call that is broken, with this answer.
    fn broken_times(store: &[u8], call: &[u8], wanted: Answer) -> (f64, f64) {
        let mut own = Side::new("peer", peer_call, store);
        let mut other = Side::new("library", library::call, store);
        for side in [&mut own, &mut other] {
            assert_eq!(side.make(call), wanted, "{}: another answer", side.name);
        }
        best_of_both(
            || {
                own.make(call);
            },
            || {
                other.make(call);
            },
        )
    }

    /// The rows for calls that are broken.
    fn broken_rows(store: &[u8]) -> Vec<(&'static str, f64, f64)> {
        let file = handle(STAMP, 1, 0);
        // The verifier's length starts at 36 and is cut.
        let cut = &getattr(&file).call(77)[..38];
        let refused = Answer {
            number: 8,
            length: 0,
            offset: 36,
        };
        let mut left_over = write(&file, 0, &[1; 512]).call(77);
        let garbage = Answer {
            number: 0,
            length: 24,
            offset: left_over.len() as u32,
        };
        left_over.push(0);
        [
            ("header cut", cut, refused),
            ("GARBAGE_ARGS", &left_over, garbage),
        ]
        .map(|(name, call, wanted)| {
            let (peer, other) = broken_times(store, call, wanted);
            (name, peer, other)
        })
        .to_vec()
    }

    /// The times of both to convert the old image of a store.
    fn convert_times(shape: Shape, store: &[u8]) -> (f64, f64) {
        let old = old_image(shape, store);
        let (mut own, mut other) = (store.to_vec(), store.to_vec());
        assert_eq!(peer::convert(&old, &mut own).number, 0);
        assert_eq!(library::convert(&old, &mut other).number, 0);
        best_of_both(
            || {
                black_box(peer::convert(black_box(&old), black_box(&mut own)));
            },
            || {
                black_box(library::convert(black_box(&old), black_box(&mut other)));
            },
        )
    }

    fn formatted(shape: Shape) -> Vec<u8> {
        let mut store = vec![0; shape.length()];
        let plan = Format {
            stamp: STAMP,
            objects: shape.objects as u32,
            names: shape.names as u32,
            blocks: shape.blocks as u32,
            seconds: 1,
            nanoseconds: 2,
        };
        assert_eq!(library::format(&plan, &mut store).number, 0);
        store
    }

    fn apply(store: &mut [u8], request: &Request) {
        let mut reply = vec![0; 4224];
        let bytes = request.call(1);
        peer::call(&bytes, store, &mut reply, 3, 4, 5);
        assert_eq!(status_of(&reply), Some(0), "{request:?}");
    }

    /// A store with a file of `size` bytes under each name.
    fn with_names(shape: Shape, names: &[Vec<u8>], size: u64) -> Vec<u8> {
        let mut store = formatted(shape);
        let root = handle(STAMP, 0, 0);
        for name in names {
            apply(&mut store, &guarded(&root, name, Attributes::size(size)));
        }
        assert_eq!(peer::check(&store).number, 0);
        assert_eq!(library::check(&store).number, 0);
        store
    }

    /// The same with that many plain names.
    fn with_files(shape: Shape, files: usize, size: u64) -> Vec<u8> {
        let names: Vec<Vec<u8>> = (0..files).map(file_name).collect();
        with_names(shape, &names, size)
    }

    fn file_name(number: usize) -> Vec<u8> {
        format!("file-number-{number}").into_bytes()
    }

    /// A full store's count of names.
    const FULL: usize = 63;
    /// The description of the names that are dearest for the library.
    const ALIKE: &str = "picked, words alike";

    /// Numbers that look random, always the same.
    struct Random(u64);

    impl Random {
        fn below(&mut self, bound: u64) -> u64 {
            self.0 ^= self.0 << 13;
            self.0 ^= self.0 >> 7;
            self.0 ^= self.0 << 17;
            self.0 % bound
        }

        /// That many small letters.
        fn letters(&mut self, count: usize) -> Vec<u8> {
            (0..count).map(|_| b'a' + self.below(26) as u8).collect()
        }
    }

    /// The first permutations of the groups of `size` bytes in a name.
    fn exchanged(name: &[u8], size: usize, count: usize) -> Vec<Vec<u8>> {
        let mut found = vec![Vec::new()];
        let groups: Vec<&[u8]> = name.chunks(size).collect();
        while found[0].len() < groups.len() {
            let mut longer = Vec::new();
            for order in &found {
                for number in (0..groups.len()).filter(|number| !order.contains(number)) {
                    longer.push([&order[..], &[number]].concat());
                }
            }
            longer.truncate(count);
            found = longer;
        }
        let name_of = |order: &Vec<usize>| -> Vec<u8> {
            order.iter().flat_map(|&at| groups[at].to_vec()).collect()
        };
        found.iter().map(name_of).collect()
    }

    /// The hash of `crates/fsck_names/specs/Distinct.antt` for a name of 32
    /// bytes in the root. It picks names, and nothing else.
    fn library_hash(name: &[u8]) -> u64 {
        let sum = name.as_chunks::<8>().0.iter().fold(0u64, |sum, word| {
            sum.rotate_right(6).wrapping_add(u64::from_le_bytes(*word))
        });
        ((sum >> 32) * 2_104_504_639 + (sum & 0xFFFF_FFFF) * 1_511_612_125) >> 27 & 255
    }

    /// Names that the library's hash puts into one chain, found by trying.
    /// With `parts` each of the four words of a name is one of two, so that
    /// two names have some words in common, now these and now those.
    fn picked(random: &mut Random, parts: bool) -> Vec<Vec<u8>> {
        let words: Vec<Vec<u8>> = (0..8).map(|_| random.letters(8)).collect();
        let mut names: Vec<Vec<u8>> = Vec::new();
        while names.len() < FULL {
            let mut name = random.letters(32);
            if parts {
                let changed = random.below(4) as usize;
                for at in (0..4).filter(|&at| at != changed) {
                    let word = &words[2 * at + random.below(2) as usize];
                    name[8 * at..8 * at + 8].copy_from_slice(word);
                }
            }
            if library_hash(&name) == 7 && !names.contains(&name) {
                names.push(name);
            }
        }
        names
    }

    /// The names of the numbers 0 to 62.
    fn numbered(name_of: &mut dyn FnMut(usize) -> Vec<u8>) -> Vec<Vec<u8>> {
        (0..FULL).map(name_of).collect()
    }

    /// The name with other bytes at some places.
    fn changed(name: &[u8; 32], places: &[(usize, usize)]) -> Vec<u8> {
        let mut name = name.to_vec();
        for &(at, byte) in places {
            name[at] = byte as u8;
        }
        name
    }

    /// Of many sets of names the one with the most pairs that the library's
    /// hash puts into one chain.
    fn worst(sets: impl Iterator<Item = Vec<Vec<u8>>>) -> Vec<Vec<u8>> {
        let pairs = |names: &Vec<Vec<u8>>| -> usize {
            let mut counts = [0; 256];
            let mut pairs = 0;
            for name in names {
                let count = &mut counts[library_hash(name) as usize];
                pairs += *count;
                *count += 1;
            }
            pairs
        };
        sets.max_by_key(pairs).unwrap_or_default()
    }

    /// Full stores' names: a description, and the names. Of each kind it is
    /// the worst of many, over all places in the name or many texts.
    fn families() -> Vec<(&'static str, Vec<Vec<u8>>)> {
        let base = b"name-of-a-file-with-32-bytes-abc";
        let digits = &[b'0'; 32];
        let random = &mut Random(88_172_645_463_325_252);
        let places = || (0..32).flat_map(|at| (0..32).map(move |to| (at, to)));
        let number = |number: usize| format!("{number:08}").into_bytes();
        let steps = [1, 2, 3, 7, 10, 11, 37, 64, 100, 256, 1000, 10_000, 100_000];
        let commons: Vec<(Vec<u8>, usize)> = (0..200)
            .map(|at| (random.letters(24), steps[at % steps.len()]))
            .collect();
        let letters = worst((0..200).map(|_| numbered(&mut |_| random.letters(32))));
        let plus_minus = places()
            .filter(|(at, to)| at / 8 != to / 8)
            .map(|(at, to)| numbered(&mut |k| changed(base, &[(at, 0x40 + k), (to, 0x7E - k)])));
        let halves = places()
            .filter(|(at, to)| at / 8 == to / 8 && at != to)
            .map(|(at, to)| numbered(&mut |k| changed(base, &[(at, 0x40 + k), (to, 0x7E - k)])));
        let one_digit =
            (0..26).map(|at| numbered(&mut |k| changed(digits, &[(at + k / 9, 0x31 + k % 9)])));
        let two_digits = places().filter(|(at, to)| at != to).map(|(at, to)| {
            numbered(&mut |k| changed(digits, &[(at, 0x30 + k / 10), (to, 0x30 + k % 10)]))
        });
        let prefix = commons.iter().map(|(common, step)| {
            numbered(&mut |k| [&common[..], &number(4_711 + k * step)].concat())
        });
        let suffix = commons.iter().map(|(common, step)| {
            numbered(&mut |k| [&number(4_711 + k * step), &common[..]].concat())
        });
        vec![
            ("32 letters", letters),
            ("plus and minus one, two words", worst(plus_minus)),
            ("plus and minus one, one word", worst(halves)),
            ("one decimal digit", worst(one_digit)),
            ("two decimal digits", worst(two_digits)),
            ("common prefix of 24 bytes", worst(prefix)),
            ("common suffix of 24 bytes", worst(suffix)),
            (
                "words of 8 bytes exchanged",
                worst((0..200).map(|_| {
                    let names = (0..3).flat_map(|_| exchanged(&random.letters(32), 8, 24));
                    names.take(FULL).collect()
                })),
            ),
            (
                "words of 4 bytes exchanged",
                worst((0..200).map(|_| exchanged(&random.letters(32), 4, FULL))),
            ),
            ("picked", picked(random, false)),
            (ALIKE, picked(random, true)),
        ]
    }

    /// Directories one in another, as many as there is room for beside one
    /// more in the root, and the handle of the innermost.
    fn deep(shape: Shape) -> (Vec<u8>, Vec<u8>) {
        let mut store = formatted(shape);
        let mut inner = handle(STAMP, 0, 0);
        apply(&mut store, &mkdir(&inner, b"moved", Attributes::default()));
        for number in 2..shape.objects {
            apply(&mut store, &mkdir(&inner, b"inner", Attributes::default()));
            inner = handle(STAMP, number as u32, 0);
        }
        assert_eq!(library::check(&store).number, 0);
        (store, inner)
    }

    /// A measured operation.
    struct Operation {
        name: &'static str,
        /// What is done to the store before.
        setup: Vec<Request>,
        /// The calls of one turn.
        calls: Vec<Vec<u8>>,
    }

    impl Operation {
        fn new(name: &'static str, requests: &[Request]) -> Operation {
            Operation {
                name,
                setup: Vec::new(),
                calls: requests.iter().map(|request| request.call(77)).collect(),
            }
        }

        /// The times of both on a copy of the store.
        fn times(&self, store: &[u8]) -> (f64, f64) {
            let mut store = store.to_vec();
            for request in &self.setup {
                apply(&mut store, request);
            }
            call_times(&store, &self.calls, Status::OK)
        }
    }

    fn operations(full: bool) -> Vec<Operation> {
        let root = handle(STAMP, 0, 0);
        let file = handle(STAMP, 1, 0);
        let last = if full { 62 } else { 0 };
        let name = file_name(last);
        let data: Vec<u8> = (0..512u32).map(|at| at as u8).collect();
        // On the full store every object is live, so a file is removed first.
        let (pair, kept) = if full {
            let made = guarded(&root, &name, Attributes::size(8192));
            let kept = exclusive(&root, &name, VERIFIER);
            ([remove(&root, &name), made], [remove(&root, &name), kept])
        } else {
            let made = guarded(&root, b"another", Attributes::default());
            let kept = exclusive(&root, b"another", VERIFIER);
            let removed = remove(&root, b"another");
            ([made, removed.clone()], [kept, removed])
        };
        // There too, a file goes over another and is made anew; elsewhere a new
        // file goes over the one of the turn before.
        let over = if full {
            let made = guarded(&root, &name, Attributes::size(8192));
            [rename(&root, &name, &root, &file_name(last - 1)), made]
        } else {
            let made = guarded(&root, b"another", Attributes::default());
            [made, rename(&root, b"another", &root, b"target")]
        };
        // The name is the second padded field; its length is no multiple of 4.
        let mut padded = Padded::of(&lookup(&root, &name), 77);
        let pads = vec![0xFF; padded.count(ARGUMENTS + 1)];
        assert!(!pads.is_empty());
        padded.fill(ARGUMENTS + 1, &pads);
        let again = if full { &kept[1] } else { &kept[0] };
        let setup = if full { &kept[..] } else { &kept[..1] };
        let target = guarded(&root, b"target", Attributes::default());
        let mix = vec![
            getattr(&file),
            lookup(&root, &file_name(0)),
            access(&file, 0x3F),
            read(&file, 100, 512),
            write(&file, 200, &data[..100]),
            setattr(&file, Attributes::mode(0o600), None),
            readdir(&root, 0, 0, 1024),
            fsstat(&root),
            rename(&root, &file_name(0), &root, b"other"),
            rename(&root, b"other", &root, &file_name(0)),
            commit(&file, 0, 0),
            read(&file, 0, 4096),
        ];
        vec![
            Operation::new("GETATTR", &[getattr(&file)]),
            Operation::new("LOOKUP", &[lookup(&root, &name)]),
            Operation {
                calls: vec![padded.bytes],
                ..Operation::new("LOOKUP, pads 255", &[])
            },
            Operation::new("READ 4,096", &[read(&file, 0, 4096)]),
            Operation::new("WRITE 512", &[write(&file, 0, &data)]),
            Operation::new("CREATE+REMOVE", &pair),
            Operation::new("EXCLUSIVE+REMOVE", &kept),
            Operation {
                setup: setup.to_vec(),
                ..Operation::new("EXCLUSIVE again", std::slice::from_ref(again))
            },
            Operation {
                setup: if full { vec![] } else { vec![target] },
                ..Operation::new("CREATE+RENAME over", &over)
            },
            Operation::new("RENAME onto itself", &[rename(&root, &name, &root, &name)]),
            Operation::new(
                "LINK+REMOVE",
                &[link(&file, &root, b"link"), remove(&root, b"link")],
            ),
            Operation::new("READDIR", &[readdir(&root, 0, 0, 4096)]),
            Operation::new("mix of 12 calls", &mix),
        ]
    }

    /// LOOKUPs in a full directory whose names of 32 bytes differ in one byte
    /// only: of the name in the last record, and of one that is not there.
    fn lookups(shape: Shape) -> Vec<(String, f64, f64)> {
        let root = handle(STAMP, 0, 0);
        let mut rows = Vec::new();
        for (byte, at) in [("first", 0), ("last", 31)] {
            let name_of = |number: usize| changed(&[b'-'; 32], &[(at, 0x30 + number)]);
            let store = with_names(shape, &numbered(&mut |number| name_of(number)), 8192);
            for (end, number, wanted) in [
                ("found", FULL - 1, Status::OK),
                ("NOENT", FULL, Status::NOENT),
            ] {
                let calls = [lookup(&root, &name_of(number)).call(77)];
                let (peer, other) = call_times(&store, &calls, wanted);
                rows.push((format!("LOOKUP, {byte} byte, {end}"), peer, other));
            }
        }
        rows
    }

    /// Names of so many bytes: as many as a store has.
    fn all_names(shape: Shape, bytes: usize) -> Vec<Vec<u8>> {
        let names = 0..shape.names;
        names
            .map(|number| format!("{number:0bytes$}").into_bytes())
            .collect()
    }

    /// A full store whose names are all used, in the root: the first four files
    /// have 16 names each, and the fifth the rest.
    fn with_links(shape: Shape, names: &[Vec<u8>]) -> Vec<u8> {
        let mut store = with_names(shape, &names[..FULL], 8192);
        let root = handle(STAMP, 0, 0);
        for (number, name) in names[FULL..].iter().enumerate() {
            let file = handle(STAMP, 1 + number as u32 / 15, 0);
            apply(&mut store, &link(&file, &root, name));
        }
        assert_eq!(library::check(&store).number, 0);
        store
    }

    /// The rows for a full store whose names are all used.
    fn linked_rows(shape: Shape) -> Vec<(&'static str, f64, f64)> {
        let root = handle(STAMP, 0, 0);
        let file = handle(STAMP, 4, 0);
        let names = all_names(shape, 3);
        let last = &names[shape.names - 1];
        let store = with_links(shape, &names);
        let (peer, other) = check_times(&store);
        let mut rows = vec![("check, 128 names", peer, other)];
        // The last name is one of the fifth file, the one before the last files'
        // further names the fourth's sixteenth.
        let fifth = handle(STAMP, 5, 0);
        let sixteenth = &names[FULL + 59];
        let operations: [(&'static str, Vec<Request>); 5] = [
            ("GETATTR, 16 names", vec![getattr(&file)]),
            (
                "GETATTR, 1 name of 128",
                vec![getattr(&handle(STAMP, 60, 0))],
            ),
            ("LOOKUP, 16 names", vec![lookup(&root, sixteenth)]),
            (
                "REMOVE+LINK, 128 names",
                vec![remove(&root, last), link(&fifth, &root, last)],
            ),
            ("READDIR, 128 names", vec![readdir(&root, 0, 0, 4096)]),
        ];
        for (name, requests) in operations {
            let calls: Vec<Vec<u8>> = requests.iter().map(|request| request.call(77)).collect();
            let (peer, other) = call_times(&store, &calls, Status::OK);
            rows.push((name, peer, other));
        }
        let store = with_links(shape, &all_names(shape, 32));
        let calls = [readdir(&root, 0, 0, 4096).call(77)];
        let (peer, other) = call_times(&store, &calls, Status::OK);
        rows.push(("READDIR, cut at 4,096", peer, other));
        rows
    }

    /// The entry point for MOUNT calls of one implementation.
    type MountEntry = fn(&Mount<'_>, &[u8], &mut [u8], &mut [u8]) -> Answer;

    fn peer_mount(mount: &Mount<'_>, store: &[u8], table: &mut [u8], reply: &mut [u8]) -> Answer {
        peer::mount(mount.bytes, store, table, reply, mount.host)
    }

    const HOST: u32 = 0xC000_0201;

    /// One of the two implementations with its own buffers, for MOUNT calls.
    struct MountSide {
        mount: MountEntry,
        store: Vec<u8>,
        table: Vec<u8>,
        reply: Vec<u8>,
    }

    impl MountSide {
        fn new(mount: MountEntry, store: &[u8], table: &[u8]) -> MountSide {
            MountSide {
                mount,
                store: store.to_vec(),
                table: table.to_vec(),
                reply: vec![0; MOUNT_REPLY_SPACE],
            }
        }

        /// Makes the calls one after the other; gives back the last answer.
        fn round(&mut self, calls: &[Vec<u8>]) -> Answer {
            let mut last = Answer {
                number: 0,
                length: 0,
                offset: 0,
            };
            for bytes in calls {
                let mount = Mount {
                    bytes: black_box(bytes),
                    host: HOST,
                    space: self.reply.len(),
                };
                let (store, table) = (&self.store, &mut self.table);
                last = black_box((self.mount)(&mount, store, table, &mut self.reply));
            }
            last
        }
    }

    /// The times of both for the MOUNT calls, made again and again. The last
    /// has this answer.
    fn mount_times(store: &[u8], table: &[u8], calls: &[Vec<u8>], wanted: Answer) -> (f64, f64) {
        let mut own = MountSide::new(peer_mount, store, table);
        let mut other = MountSide::new(library::mount, store, table);
        assert_eq!(own.round(calls), wanted, "peer: another answer");
        assert_eq!(other.round(calls), wanted, "library: another answer");
        assert!(own.reply == other.reply && own.table == other.table);
        assert!(own.table == table, "a round leaves the table as it was");
        best_of_both(
            || {
                own.round(calls);
            },
            || {
                other.round(calls);
            },
        )
    }

    /// A table of one row of the host, or none.
    fn table_with(path: Option<&[u8]>) -> Vec<u8> {
        tables::write(&[path.map(|path| tables::Row::new(HOST, path))])
    }

    /// A full store with eight directories one in another behind its files, and
    /// the path of the innermost.
    fn with_directories(shape: Shape) -> (Vec<u8>, Vec<u8>) {
        let mut store = with_files(shape, FULL - 8, 8192);
        let mut above = handle(STAMP, 0, 0);
        let mut path = Vec::new();
        for number in FULL - 7..=FULL {
            let name = format!("directory-{number}");
            let request = mkdir(&above, name.as_bytes(), Attributes::default());
            apply(&mut store, &request);
            above = handle(STAMP, number as u32, 0);
            path.push(b'/');
            path.extend(name.as_bytes());
        }
        assert_eq!(peer::check(&store).number, 0);
        (store, path)
    }

    /// The rows of MOUNT for a store.
    fn mount_rows(shape: Shape, store: &[u8], full: bool) -> Vec<(&'static str, f64, f64)> {
        let call = |procedure: u32, path: Option<&[u8]>| mounts::call(77, procedure, path);
        let null = [call(mount_procedure::NULL, None)];
        let empty = table_with(None);
        let rows = alike_rows(HOST, 1023).into_iter().map(Some);
        let paths = tables::write(&rows.collect::<Vec<_>>());
        let mut times = Vec::new();
        let mut broken_row =
            |name, store: &[u8], table: &[u8], calls: &[Vec<u8>], length, offset| {
                let wanted = Answer {
                    number: 0,
                    length,
                    offset,
                };
                let (peer, other) = mount_times(store, table, calls, wanted);
                times.push((name, peer, other));
            };
        let mut left_over = call(mount_procedure::MNT, Some(b"/"));
        let end = left_over.len();
        left_over.resize(end + 4, 0);
        broken_row(
            "MNT, left over",
            store,
            &empty,
            &[left_over],
            24,
            end as u32,
        );
        let mut row = |name, store: &[u8], table: &[u8], calls: &[Vec<u8>], length| {
            broken_row(name, store, table, calls, length, 0);
        };
        row("MOUNT NULL, empty table", store, &empty, &null, 24);
        row("MOUNT NULL, 32 paths", store, &paths, &null, 24);
        if full {
            let (store, path) = with_directories(shape);
            let first = path[1..].iter().position(|&byte| byte == b'/');
            let name = &path[..first.map_or(path.len(), |at| at + 1)];
            for (label, path) in [("MNT, 1 name", name), ("MNT, 8 names", &path)] {
                let calls = [call(mount_procedure::MNT, Some(path))];
                row(label, &store, &table_with(Some(path)), &calls, 56);
            }
            let pair = [mount_procedure::MNT, mount_procedure::UMNT];
            let calls = pair.map(|procedure| call(procedure, Some(name)));
            row("MNT+UMNT", &store, &empty, &calls, 24);
            // "192.0.2.1" has 9 bytes, padded to 12.
            let length = 24 + 32 * (4 + 4 + 12 + 4 + 1024) + 4;
            let calls = [call(mount_procedure::DUMP, None)];
            row("DUMP, 32 paths", &store, &paths, &calls, length);
            let calls = [call(mount_procedure::EXPORT, None)];
            row("EXPORT", &store, &empty, &calls, 44);
        }
        times
    }

    fn line(store: &str, operation: &str, peer: f64, library: f64) -> f64 {
        let ratio = library / peer;
        println!("{store:<6} {operation:<25} {peer:>10.0} {library:>12.0} {ratio:>8.2}");
        ratio
    }

    /// The time to sum the words of the bytes.
    #[inline(never)]
    fn sum_of_words(bytes: &[u8]) -> u32 {
        let mut sum = 0u32;
        for word in bytes.chunks_exact(4) {
            sum = sum.wrapping_add(u32::from_be_bytes([word[0], word[1], word[2], word[3]]));
        }
        sum
    }

    pub fn main() {
        let small = Shape {
            objects: 8,
            names: 8,
            blocks: 8,
        };
        let full = Shape {
            objects: 64,
            names: 128,
            blocks: 1024,
        };
        let stores = [
            ("small", small, with_files(small, 1, 4096)),
            ("full", full, with_files(full, 63, 8192)),
        ];
        let mut largest = 0f64;
        println!("Nanoseconds for one turn, the best of {REPETITIONS}; ratio is library / peer.");
        println!("store  operation                       peer      library    ratio");
        for (label, shape, store) in &stores {
            let (peer, other) = check_times(store);
            largest = largest.max(line(label, "check", peer, other));
            for operation in operations(*shape == full) {
                let (peer, other) = operation.times(store);
                largest = largest.max(line(label, operation.name, peer, other));
            }
            for (name, peer, other) in broken_rows(store) {
                largest = largest.max(line(label, name, peer, other));
            }
            if *shape == full {
                for (name, peer, other) in lookups(full) {
                    largest = largest.max(line(label, &name, peer, other));
                }
                for (name, peer, other) in linked_rows(full) {
                    largest = largest.max(line(label, name, peer, other));
                }
            }
            if library::HAS_MOUNT {
                for (name, peer, other) in mount_rows(*shape, store, *shape == full) {
                    largest = largest.max(line(label, name, peer, other));
                }
            }
        }
        if !library::HAS_MOUNT {
            library::report_no_mount("bench");
        }
        println!();
        println!("The converter, which runs once in the life of a store:");
        for (label, shape, store) in &stores {
            let (peer, other) = convert_times(*shape, store);
            line(label, "convert", peer, other);
        }
        println!();
        println!("The check of full stores by their 63 names; factor is to the full store above,");
        println!("measured in turns with it.");
        println!("names                               peer  library    ratio  factor of peer  of library");
        let plain = &stores[1].2;
        for (label, names) in families() {
            let store = with_names(full, &names, 8192);
            let (peer, other) = check_times(&store);
            let own = factor(peer::check, plain, &store);
            let factor = factor(library::check, plain, &store);
            let ratio = other / peer;
            println!(
                "{label:<30} {peer:>9.0} {other:>8.0} {ratio:>8.2} {own:>15.2} {factor:>11.2}"
            );
            if label == ALIKE && factor < 2.0 {
                println!("These names were picked with another hash than the library's.");
            }
        }
        let (store, inner) = deep(full);
        let (peer, other) = check_times(&store);
        println!();
        println!("62 directories one in another, and one that is moved into the innermost.");
        println!("store  operation                       peer      library    ratio");
        line("deep", "check", peer, other);
        let root = handle(STAMP, 0, 0);
        let there = rename(&root, b"moved", &inner, b"moved").call(77);
        let back = rename(&inner, b"moved", &root, b"moved").call(77);
        let (peer, other) = call_times(&store, &[there, back], Status::OK);
        line("deep", "RENAME and back", peer, other);
        // The innermost is empty; the one that is moved takes its place.
        let outer = handle(STAMP, full.objects as u32 - 2, 0);
        let over = rename(&root, b"moved", &outer, b"inner").call(77);
        let anew = mkdir(&root, b"moved", Attributes::default()).call(77);
        let (peer, other) = call_times(&store, &[over, anew], Status::OK);
        line("deep", "RENAME over, MKDIR", peer, other);
        println!();
        println!("How the check grows; half of the names are used, every object is live.");
        println!(
            "objects names blocks       peer      library    ratio   word sum  peer / word sum"
        );
        for objects in [1usize, 2, 4, 8, 16, 32, 64] {
            let shape = Shape {
                objects,
                names: 2 * objects,
                blocks: 16 * objects,
            };
            let store = with_files(shape, objects - 1, 8192);
            let records = &store[..shape.block_count_at() + 4];
            let (peer, other) = check_times(&store);
            let (again, sum) = best_of_both(
                || {
                    black_box(peer::check(black_box(&store)));
                },
                || {
                    black_box(sum_of_words(black_box(records)));
                },
            );
            let peer = peer.min(again);
            println!(
                "{:>7} {:>5} {:>6} {peer:>10.0} {other:>12.0} {:>8.2} {sum:>10.0} {:>16.2}",
                shape.objects,
                shape.names,
                shape.blocks,
                other / peer,
                peer / sum
            );
        }
        println!();
        println!("largest ratio library / peer: {largest:.2}");
    }
}
