//! Compares the static libraries `libnfs3.a` and `libmount3.a` with the peer,
//! call by call.
//!
//! Usage: compare [--calls N] [--seed S] [--run R] [--show]
//!        compare --mounts N [--seed S] [--run R] [--show]
//!        compare --old-images N [--seed S]
//!        compare --replay FILE
//!
//! The scripted runs come first, then random runs until N calls are made.
//! `--run R` makes only that random run; `--show` prints each step before it
//! is made. `--mounts` does the same with the runs of the file of mounts and
//! with random ones of their kind, until N MOUNT calls are made. `--old-images` converts N old images, whole and damaged.
//! `--replay` replays a vector file on the library; the searches of a file are
//! the peer's, through the stores that the library leaves.

#[cfg(nfs3_library)]
#[path = "shared/library.rs"]
mod library;

#[cfg(not(nfs3_library))]
fn main() -> std::process::ExitCode {
    eprintln!(
        "compare: there is no library at {}; build it or set NFS3_LIBRARY to its folder",
        env!("NFS3_LIBRARY_FILE")
    );
    std::process::ExitCode::from(2)
}

#[cfg(nfs3_library)]
fn main() -> std::process::ExitCode {
    comparison::main()
}

#[cfg(nfs3_library)]
mod comparison {
    use std::collections::BTreeMap;
    use std::fmt::Write as _;
    use std::io::Write as _;
    use std::process::{exit, ExitCode};
    use std::time::Instant;

    use super::library;
    use peer::generator::coverage::Coverage;
    use peer::generator::driver::{Call, Driver, Format, Mount, Outcome, Peer, FRESH, SPARE};
    use peer::generator::mounts;
    use peer::generator::old_images::Pool;
    use peer::generator::random::Random;
    use peer::generator::random_runs::{self, Extent};
    use peer::generator::rules;
    use peer::generator::scripts::{self, Runs};
    use peer::generator::vector_file::{replay, Subject};
    use peer::mount_table::ROW_BYTES;
    use peer::Answer;

    /// Random runs have numbers from here on.
    const FIRST_RANDOM_RUN: u32 = 100_000;
    /// Bytes around each buffer that the library must leave alone.
    const FENCE: usize = 64;
    const FENCE_BYTE: u8 = 0xC7;

    /// A buffer between two fences, at any alignment.
    #[derive(Default)]
    struct Fenced {
        bytes: Vec<u8>,
        start: usize,
        length: usize,
    }

    impl Fenced {
        fn reset(&mut self, length: usize, shift: usize, value: u8) {
            self.start = FENCE + shift;
            self.length = length;
            self.bytes.clear();
            self.bytes.resize(self.start, FENCE_BYTE);
            self.bytes.resize(self.start + length, value);
            self.bytes.resize(self.start + length + FENCE, FENCE_BYTE);
        }

        /// Holds a copy of these bytes.
        fn hold(&mut self, bytes: &[u8], shift: usize) {
            self.reset(bytes.len(), shift, 0);
            self.inside_mut().copy_from_slice(bytes);
        }

        /// Whether it still holds these bytes and nothing around them changed.
        fn holds(&self, bytes: &[u8]) -> bool {
            self.inside() == bytes && self.fences_stand()
        }

        fn inside(&self) -> &[u8] {
            &self.bytes[self.start..self.start + self.length]
        }

        fn inside_mut(&mut self) -> &mut [u8] {
            &mut self.bytes[self.start..self.start + self.length]
        }

        fn fences_stand(&self) -> bool {
            let (before, rest) = self.bytes.split_at(self.start);
            let after = &rest[self.length..];
            before.iter().chain(after).all(|&byte| byte == FENCE_BYTE)
        }
    }

    /// What the step under way is.
    enum Step<'a> {
        Format(Format),
        Patch(usize, &'a [u8]),
        Check,
        Call(Call<'a>),
        Convert(&'a [u8]),
        Mount(Mount<'a>),
    }

    impl<'a> Step<'a> {
        /// The bytes of a call of either kind.
        fn call(&self) -> Option<&'a [u8]> {
            match self {
                Step::Call(call) => Some(call.bytes),
                Step::Mount(mount) => Some(mount.bytes),
                _ => None,
            }
        }
    }

    /// What is to be compared.
    #[derive(Clone, Copy)]
    enum Wanted {
        Calls(u64),
        Mounts(u64),
    }

    struct Comparer {
        seed: u64,
        show: bool,
        run: u32,
        title: String,
        step: u64,
        calls_in_run: u64,
        calls: u64,
        mounts: u64,
        steps: u64,
        wanted: Wanted,
        peer: Peer,
        call: Fenced,
        store: Fenced,
        table: Fenced,
        reply: Fenced,
        old: Fenced,
        peer_reply: Vec<u8>,
        before: Vec<u8>,
        table_before: Vec<u8>,
        coverage: Coverage,
        started: Instant,
        shown: u64,
    }

    fn hex(bytes: &[u8]) -> String {
        let mut text = String::new();
        for byte in bytes {
            let _ = write!(text, "{byte:02x}");
        }
        text
    }

    fn first_difference(left: &[u8], right: &[u8]) -> Option<usize> {
        if left == right {
            return None;
        }
        let shorter = left.len().min(right.len());
        Some(
            (0..shorter)
                .find(|&at| left[at] != right[at])
                .unwrap_or(shorter),
        )
    }

    impl Comparer {
        fn new(seed: u64, show: bool, wanted: Wanted) -> Comparer {
            Comparer {
                seed,
                show,
                run: 0,
                title: String::new(),
                step: 0,
                calls_in_run: 0,
                calls: 0,
                mounts: 0,
                steps: 0,
                wanted,
                peer: Peer::default(),
                call: Fenced::default(),
                store: Fenced::default(),
                table: Fenced::default(),
                reply: Fenced::default(),
                old: Fenced::default(),
                peer_reply: Vec::new(),
                before: Vec::new(),
                table_before: Vec::new(),
                coverage: Coverage::default(),
                started: Instant::now(),
                shown: 0,
            }
        }

        fn describe(&self, step: &Step<'_>) -> String {
            let mut text = format!(
                "seed {}, run {} ({}), step {}, call {} of the run\n",
                self.seed, self.run, self.title, self.step, self.calls_in_run
            );
            match step {
                Step::Format(plan) => {
                    let _ = writeln!(text, "{plan:?}");
                }
                Step::Patch(offset, bytes) => {
                    let _ = writeln!(text, "patch at {offset}: {}", hex(bytes));
                }
                Step::Check => text.push_str("check\n"),
                Step::Convert(old) => {
                    let _ = writeln!(text, "convert {} bytes: {}", old.len(), hex(old));
                }
                Step::Call(call) => {
                    let _ = writeln!(
                        text,
                        "call of {} bytes: {}\nclock {} {}, verifier {:#018x}, reply space {}",
                        call.bytes.len(),
                        hex(call.bytes),
                        call.seconds,
                        call.nanoseconds,
                        call.verifier,
                        call.space
                    );
                }
                Step::Mount(mount) => {
                    let _ = writeln!(
                        text,
                        "MOUNT call of {} bytes: {}\nhost {:#010x}, reply space {}, table of {} bytes",
                        mount.bytes.len(),
                        hex(mount.bytes),
                        mount.host,
                        mount.space,
                        self.table_before.len()
                    );
                }
            }
            text
        }

        /// Counts a step and keeps store and table as they were before.
        fn begin(&mut self, step: &Step<'_>) {
            self.step += 1;
            self.steps += 1;
            self.calls_in_run += u64::from(step.call().is_some());
            self.calls += u64::from(matches!(step, Step::Call(_)));
            self.mounts += u64::from(matches!(step, Step::Mount(_)));
            self.before.clear();
            self.before.extend_from_slice(&self.peer.store);
            self.table_before.clear();
            self.table_before.extend_from_slice(&self.peer.table);
            if self.show {
                print!("{}", self.describe(step));
            }
        }

        /// Whether enough calls are made.
        fn is_enough(&self) -> bool {
            match self.wanted {
                Wanted::Calls(wanted) => self.calls >= wanted,
                Wanted::Mounts(wanted) => self.mounts >= wanted,
            }
        }

        /// Readies the buffers that the library gets for a call, at any
        /// alignment, and the reply space as the peer has left it.
        fn ready(&mut self, bytes: &[u8], space: usize, outcome: &Outcome) {
            self.peer_reply.clear();
            self.peer_reply.extend_from_slice(&outcome.reply);
            self.peer_reply.resize(space, SPARE);
            let shift = self.step as usize % 8;
            self.reply.reset(space, shift, SPARE);
            self.call.hold(bytes, (shift + 3) % 8);
        }

        /// Compares both outcomes; ends the program at a difference.
        fn finish(&mut self, step: &Step<'_>, peer: Answer, library: Answer) {
            let mut differences = String::new();
            if peer != library {
                let _ = writeln!(differences, "answer: peer {peer:?}, library {library:?}");
            }
            if let Some(bytes) = step.call() {
                let (own, other) = (&self.peer_reply[..], self.reply.inside());
                if let Some(at) = first_difference(own, other) {
                    let _ = writeln!(
                        differences,
                        "reply space at {at}: peer {:#04x}, library {:#04x}\npeer reply    {}\nlibrary reply {}",
                        own[at],
                        other[at],
                        hex(&own[..(peer.length as usize).min(own.len())]),
                        hex(&other[..(library.length as usize).min(other.len())]),
                    );
                }
                if !self.reply.fences_stand() {
                    differences.push_str("the library wrote outside the reply space\n");
                }
                if !self.call.holds(bytes) {
                    differences.push_str("the library wrote in or beside the call\n");
                }
            }
            if matches!(step, Step::Convert(old) if !self.old.holds(old)) {
                differences.push_str("the library wrote in or beside the old image\n");
            }
            let (own, other) = (&self.peer.store[..], self.store.inside());
            if let Some(at) = first_difference(own, other) {
                let _ = writeln!(
                    differences,
                    "store at {at}: peer {:#04x}, library {:#04x}, before {:#04x}",
                    own[at], other[at], self.before[at]
                );
            }
            if !self.store.fences_stand() {
                differences.push_str("the library wrote outside the store\n");
            }
            let (own, other) = (&self.peer.table[..], self.table.inside());
            if let Some(at) = first_difference(own, other) {
                let _ = writeln!(
                    differences,
                    "table at {at} (row {}, byte {}): peer {:#04x}, library {:#04x}, before {:#04x}",
                    at / ROW_BYTES,
                    at % ROW_BYTES,
                    own[at],
                    other[at],
                    self.table_before[at]
                );
            }
            if !self.table.fences_stand() {
                differences.push_str("the library wrote outside the table\n");
            }
            if differences.is_empty() {
                self.progress();
                return;
            }
            eprint!("DIFFERENCE\n{}{differences}", self.describe(step));
            self.keep("store", &self.before);
            if matches!(step, Step::Mount(_)) {
                self.keep("table", &self.table_before);
            }
            let mode = match self.wanted {
                Wanted::Calls(_) => "--calls",
                Wanted::Mounts(_) => "--mounts",
            };
            if self.run >= FIRST_RANDOM_RUN {
                let (seed, run) = (self.seed, self.run);
                eprintln!("again: compare {mode} 1 --seed {seed} --run {run}");
            } else {
                eprintln!("again: compare {mode} 1 (the scripted runs come first)");
            }
            exit(1);
        }

        /// Keeps a buffer as it was before the step in a file.
        fn keep(&self, what: &str, bytes: &[u8]) {
            let name = format!(
                "nfs3-compare-{}-{}-{}.{what}",
                self.seed, self.run, self.step
            );
            let file = std::env::temp_dir().join(name);
            match std::fs::write(&file, bytes) {
                Ok(()) => eprintln!("{what} before: {} bytes in {}", bytes.len(), file.display()),
                Err(error) => eprintln!("{what} before could not be written: {error}"),
            }
        }

        fn progress(&mut self) {
            let passed = self.started.elapsed().as_secs() / 2;
            if passed > self.shown {
                self.shown = passed;
                let (done, wanted, what) = match self.wanted {
                    Wanted::Calls(wanted) => (self.calls, wanted, "calls"),
                    Wanted::Mounts(wanted) => (self.mounts, wanted, "MOUNT calls"),
                };
                println!(
                    "{done} of {wanted} {what}, run {}, {:.0} s",
                    self.run,
                    self.started.elapsed().as_secs_f64()
                );
            }
        }
    }

    impl Driver for Comparer {
        fn start(&mut self, number: u32, length: usize, title: &str) {
            self.run = number;
            title.clone_into(&mut self.title);
            self.step = 0;
            self.calls_in_run = 0;
            self.peer.start(length);
            self.store.reset(length, number as usize % 8, FRESH);
            if self.show {
                println!("run {number}: {title}, store of {length} bytes");
            }
        }

        fn format(&mut self, plan: Format) -> Answer {
            let step = Step::Format(plan);
            self.begin(&step);
            let own = self.peer.format(plan);
            let other = library::format(&plan, self.store.inside_mut());
            self.finish(&step, own, other);
            self.coverage.format(own.number);
            own
        }

        fn patch(&mut self, offset: usize, bytes: &[u8]) {
            let step = Step::Patch(offset, bytes);
            self.begin(&step);
            self.peer.patch(offset, bytes);
            self.store.inside_mut()[offset..offset + bytes.len()].copy_from_slice(bytes);
        }

        fn check(&mut self) -> Answer {
            self.begin(&Step::Check);
            let own = peer::check(&self.peer.store);
            let other = library::check(self.store.inside());
            self.finish(&Step::Check, own, other);
            self.coverage.check(own.number);
            own
        }

        fn call(&mut self, call: Call<'_>) -> Outcome {
            let step = Step::Call(call);
            self.begin(&step);
            let outcome = self.peer.call(call);
            self.ready(call.bytes, call.space, &outcome);
            let library_call = Call {
                bytes: self.call.inside(),
                ..call
            };
            let other = library::call(
                &library_call,
                self.store.inside_mut(),
                self.reply.inside_mut(),
            );
            self.finish(&step, outcome.answer, other);
            self.coverage.call(call.bytes, &outcome);
            outcome
        }

        fn convert(&mut self, old: &[u8]) -> Answer {
            let step = Step::Convert(old);
            self.begin(&step);
            let own = self.peer.convert(old);
            self.old.hold(old, self.step as usize % 8);
            let other = library::convert(self.old.inside(), self.store.inside_mut());
            self.finish(&step, own, other);
            self.coverage.convert(own.number);
            own
        }

        fn store(&self) -> &[u8] {
            &self.peer.store
        }

        fn set_table(&mut self, table: &[u8]) {
            self.peer.set_table(table);
            self.table.hold(table, self.steps as usize % 8);
        }

        fn mount(&mut self, mount: Mount<'_>) -> Outcome {
            let step = Step::Mount(mount);
            self.begin(&step);
            self.coverage.mounts.before(&self.table_before);
            let outcome = self.peer.mount(mount);
            self.ready(mount.bytes, mount.space, &outcome);
            let library_mount = Mount {
                bytes: self.call.inside(),
                ..mount
            };
            let other = library::mount(
                &library_mount,
                self.store.inside(),
                self.table.inside_mut(),
                self.reply.inside_mut(),
            );
            self.finish(&step, outcome.answer, other);
            self.coverage.mounts.after(&mount, &outcome);
            outcome
        }

        fn table(&self) -> &[u8] {
            &self.peer.table
        }

        /// Of the labels only the rules and those of random calls are counted.
        fn note(&mut self, group: &'static str, label: &str) {
            let counted = [
                rules::GROUP,
                rules::MOUNT_GROUP,
                rules::PLACE_GROUP,
                rules::LINK_GROUP,
                random_runs::RENAMES,
                random_runs::LINKS,
            ];
            if counted.contains(&group) {
                self.coverage.note(group, label);
            }
        }
    }

    /// Old images under comparison, and how both have answered so far.
    struct OldImages {
        seed: u64,
        pool: Pool,
        image: Vec<u8>,
        target: Vec<u8>,
        library_image: Fenced,
        library_target: Fenced,
        /// By kind of image: answered 0, 1 and 6.
        answers: BTreeMap<&'static str, [u64; 3]>,
        differences: u64,
    }

    /// The answers of the converter, in the order of their columns.
    const ANSWERS: [u32; 3] = [0, 1, 6];

    impl OldImages {
        fn new(seed: u64) -> OldImages {
            OldImages {
                seed,
                pool: Pool::new(seed),
                image: Vec::new(),
                target: Vec::new(),
                library_image: Fenced::default(),
                library_target: Fenced::default(),
                answers: BTreeMap::new(),
                differences: 0,
            }
        }

        /// Makes the image of this number and converts it on both sides.
        fn compare(&mut self, number: u64) {
            let mut random = Random::part(self.seed, number);
            let made = self.pool.make(&mut random, &mut self.image);
            self.target.clear();
            self.target.resize(made.target, FRESH);
            let own = peer::convert(&self.image, &mut self.target);
            self.library_image.hold(&self.image, random.below(8));
            self.library_target
                .reset(made.target, random.below(8), FRESH);
            let other = library::convert(
                self.library_image.inside(),
                self.library_target.inside_mut(),
            );
            let counts = self.answers.entry(made.kind).or_default();
            if let Some(column) = ANSWERS.iter().position(|&answer| answer == own.number) {
                counts[column] += 1;
            }
            let agree = own == other
                && self.library_target.holds(&self.target)
                && self.library_image.holds(&self.image);
            if !agree {
                self.differ(number, made.kind, own, other);
            }
        }

        /// Counts a difference; shows the first ten and keeps their images in
        /// files.
        fn differ(&mut self, number: u64, kind: &str, own: Answer, other: Answer) {
            self.differences += 1;
            if self.differences > 10 {
                return;
            }
            eprintln!(
                "DIFFERENCE in image {number} ({kind}), {} bytes for a target of {}: \
                 peer {own:?}, library {other:?}, first differing byte of the target {:?}",
                self.image.len(),
                self.target.len(),
                first_difference(&self.target, self.library_target.inside()),
            );
            if !self.library_target.fences_stand() {
                eprintln!("the library wrote outside the target");
            }
            if !self.library_image.holds(&self.image) {
                eprintln!("the library wrote in or beside the old image");
            }
            let name = format!("nfs3-compare-{}-{number}.old-image", self.seed);
            let file = std::env::temp_dir().join(name);
            match std::fs::write(&file, &self.image) {
                Ok(()) => eprintln!("the image is in {}", file.display()),
                Err(error) => eprintln!("the image could not be written: {error}"),
            }
        }
    }

    /// Compares the conversions of so many old images.
    fn compare_old_images(count: u64, seed: u64) -> ExitCode {
        let started = Instant::now();
        let mut images = OldImages::new(seed);
        for number in 0..count {
            images.compare(number);
        }
        println!("| old image | answered 0 | 1 | 6 |\n|---|---:|---:|---:|");
        let mut total = [0; 3];
        for (kind, counts) in &images.answers {
            println!("| {kind} | {} | {} | {} |", counts[0], counts[1], counts[2]);
            for (sum, count) in total.iter_mut().zip(counts) {
                *sum += count;
            }
        }
        println!(
            "seed {seed}: {count} old images, {} answered 0, {} answered 1, {} answered 6, \
             {} differences, {:.1} s",
            total[0],
            total[1],
            total[2],
            images.differences,
            started.elapsed().as_secs_f64()
        );
        if images.differences == 0 {
            ExitCode::SUCCESS
        } else {
            ExitCode::FAILURE
        }
    }

    /// One random run; its kind and size follow from seed and number.
    fn random_run(driver: &mut dyn Driver, seed: u64, number: u32) {
        let mut random = Random::part(!seed, u64::from(number));
        let (extent, steps) = match random.below(100) {
            0..=54 => (Extent::Small, 150),
            55..=79 => (Extent::Middle, 250),
            80..=90 => (Extent::Wide, 300),
            91..=92 => (Extent::Largest, 80),
            _ => return random_runs::raw_store_run(driver, number, seed),
        };
        let transfer = random.pick(&[100, 600, 5000]);
        random_runs::run(driver, number, seed, extent, steps, transfer);
    }

    /// The same for a run with MOUNT calls.
    fn mount_run(driver: &mut dyn Driver, seed: u64, number: u32) {
        let mut random = Random::part(!seed, u64::from(number));
        let (extent, steps) = match random.below(200) {
            0..=159 => (mounts::Extent::Small, 300),
            160..=197 => (mounts::Extent::Middle, 300),
            _ => (mounts::Extent::Full, 80),
        };
        mounts::run(driver, number, seed, extent, steps);
    }

    struct Library;

    impl Subject for Library {
        fn format(&mut self, store: &mut [u8], plan: &Format) -> Answer {
            library::format(plan, store)
        }

        fn check(&mut self, store: &[u8]) -> Answer {
            library::check(store)
        }

        fn call(&mut self, store: &mut [u8], call: &Call<'_>, reply: &mut [u8]) -> Answer {
            library::call(call, store, reply)
        }

        fn convert(&mut self, old: &[u8], store: &mut [u8]) -> Answer {
            library::convert(old, store)
        }

        fn mount(
            &mut self,
            store: &[u8],
            table: &mut [u8],
            mount: &Mount<'_>,
            reply: &mut [u8],
        ) -> Answer {
            library::mount(mount, store, table, reply)
        }
    }

    fn replay_file(name: &str) -> ExitCode {
        let file = match std::fs::read(name) {
            Ok(file) => file,
            Err(error) => {
                eprintln!("compare: cannot read {name}: {error}");
                return ExitCode::from(2);
            }
        };
        match replay(&file, &mut Library) {
            Some((text, differences)) => {
                if let Err(error) = std::io::stdout().write_all(&text) {
                    eprintln!("compare: cannot print: {error}");
                    return ExitCode::from(2);
                }
                if differences == 0 {
                    ExitCode::SUCCESS
                } else {
                    ExitCode::FAILURE
                }
            }
            None => {
                eprintln!("compare: {name} is not a vector file");
                ExitCode::from(2)
            }
        }
    }

    struct Options {
        wanted: Wanted,
        seed: u64,
        run: Option<u32>,
        show: bool,
        old_images: Option<u64>,
        replay: Option<String>,
    }

    fn options() -> Option<Options> {
        let mut options = Options {
            wanted: Wanted::Calls(100_000),
            seed: 1,
            run: None,
            show: false,
            old_images: None,
            replay: None,
        };
        let mut arguments = std::env::args().skip(1);
        while let Some(argument) = arguments.next() {
            match &argument[..] {
                "--calls" => options.wanted = Wanted::Calls(arguments.next()?.parse().ok()?),
                "--mounts" => options.wanted = Wanted::Mounts(arguments.next()?.parse().ok()?),
                "--seed" => options.seed = arguments.next()?.parse().ok()?,
                "--run" => options.run = Some(arguments.next()?.parse().ok()?),
                "--show" => options.show = true,
                "--old-images" => options.old_images = Some(arguments.next()?.parse().ok()?),
                "--replay" => options.replay = Some(arguments.next()?),
                _ => return None,
            }
        }
        Some(options)
    }

    pub fn main() -> ExitCode {
        let Some(options) = options() else {
            eprintln!(
                "usage: compare [--calls N | --mounts N] [--seed S] [--run R] [--show] | \
                 compare --old-images N [--seed S] | compare --replay FILE"
            );
            return ExitCode::from(2);
        };
        if let Some(name) = &options.replay {
            return replay_file(name);
        }
        if let Some(count) = options.old_images {
            return compare_old_images(count, options.seed);
        }
        let with_mounts = matches!(options.wanted, Wanted::Mounts(_));
        if with_mounts && !library::HAS_MOUNT {
            library::report_no_mount("compare");
            return ExitCode::from(2);
        }
        let random_run = if with_mounts { mount_run } else { random_run };
        let mut comparer = Comparer::new(options.seed, options.show, options.wanted);
        if let Some(run) = options.run {
            random_run(&mut comparer, options.seed, run);
        } else {
            let mut runs = Runs {
                driver: &mut comparer,
                next: 0,
            };
            if with_mounts {
                mounts::all_scripts(&mut runs);
            } else {
                scripts::all(&mut runs);
            }
            println!(
                "scripted runs agree, {} calls, {} MOUNT calls",
                comparer.calls, comparer.mounts
            );
            let mut number = FIRST_RANDOM_RUN;
            while !comparer.is_enough() {
                random_run(&mut comparer, options.seed, number);
                number += 1;
            }
            println!("{} random runs agree", number - FIRST_RANDOM_RUN);
        }
        print!("{}", comparer.coverage.tables());
        if with_mounts {
            print!("{}", comparer.coverage.mounts.tables());
        }
        if options.run.is_none() {
            let missing = if with_mounts {
                comparer.coverage.missing_mounts()
            } else {
                comparer.coverage.missing()
            };
            for missing in missing {
                println!("not reached: {missing}");
            }
        }
        println!(
            "seed {}: {} steps, {} calls, {} MOUNT calls, 0 differences, {:.1} s",
            options.seed,
            comparer.steps,
            comparer.calls,
            comparer.mounts,
            comparer.started.elapsed().as_secs_f64()
        );
        ExitCode::SUCCESS
    }
}
