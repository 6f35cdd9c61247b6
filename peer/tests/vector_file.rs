//! The vector file, the file of searches and the file of mounts: what they
//! reach, and their replay on the peer.

use peer::generator::driver::{Call, Format, Mount};
use peer::generator::recorder::{record, record_mounts, record_searches};
use peer::generator::vector_file::{digest, replay, Own, Subject};
use peer::{Answer, Search};

#[test]
fn digest_of_known_bytes() {
    assert_eq!(digest(&[]), (2_166_136_261 << 32) | 1);
    let first = (2_166_136_261u64 * 16_777_619 + 7) % (1 << 32);
    let second = 2_246_822_519u64 + 8;
    assert_eq!(digest(&[7]), (first << 32) | second);
    let first = (first * 16_777_619 + 255) % (1 << 32);
    let second = (second * 2_246_822_519 + 256) % (1 << 32);
    assert_eq!(digest(&[7, 255]), (first << 32) | second);
}

#[test]
fn reach_and_replay() {
    let recording = record();
    assert!(recording.file.len() <= 4_600_000);
    assert!(recording.digested <= 300_000_000);
    assert_eq!(recording.coverage.missing(), Vec::<String>::new());
    assert_eq!(recording.coverage.unexpected(), Vec::<String>::new());
    let (text, differences) = replay(&recording.file, &mut Own).unwrap();
    assert_eq!(differences, 0);
    assert_eq!(text, recording.stdout.as_bytes());
    assert_eq!(recording.stdout.lines().count(), 1);
    assert!(recording.stdout.contains(", 0 searches, 0 mounts, "));
}

#[test]
fn searches_reach_and_replay() {
    let recording = record_searches();
    assert!(recording.file.len() <= 1_500_000);
    assert!(recording.digested <= 300_000_000);
    assert_eq!(recording.coverage.missing_searches(), Vec::<String>::new());
    assert_eq!(recording.coverage.unexpected(), Vec::<String>::new());
    let (text, differences) = replay(&recording.file, &mut Own).unwrap();
    assert_eq!(differences, 0);
    assert_eq!(text, recording.stdout.as_bytes());
    // The table in plain English, then the last line.
    let lines: Vec<&str> = recording.stdout.lines().collect();
    assert!(recording.stdout.is_ascii());
    assert!(lines.iter().all(|line| line.len() < 120));
    let searches = lines.iter().filter(|line| line.ends_with(" pairs"));
    assert!(searches.count() >= 80);
    assert!(lines[lines.len() - 1].starts_with("total: "));
    let tag = "  match in the last record, 0123456780 in directory 2: record 8, 21 pairs";
    assert!(lines.contains(&tag));
    // It is the same each time.
    assert!(record_searches().file == recording.file);
}

#[test]
fn mounts_reach_and_replay() {
    let recording = record_mounts();
    assert!(recording.file.len() <= 2_500_000);
    assert!(recording.digested <= 300_000_000);
    assert_eq!(recording.coverage.missing_mounts(), Vec::<String>::new());
    assert_eq!(recording.coverage.unexpected(), Vec::<String>::new());
    let (text, differences) = replay(&recording.file, &mut Own).unwrap();
    assert_eq!(differences, 0);
    assert_eq!(text, recording.stdout.as_bytes());
    assert_eq!(recording.stdout.lines().count(), 1);
    let mounts = recording.coverage.mounts.calls();
    let total = format!(", 0 searches, {mounts} mounts, 0 differences\n");
    assert!(recording.stdout.ends_with(&total));
    assert!(mounts >= 4000);
    // It is the same each time.
    assert!(record_mounts().file == recording.file);
}

/// Only the file of mounts has rows about mounts, and it has all of them.
#[test]
fn rows_of_the_mounts() {
    let tags = |file: &[u8]| {
        let mut tags = std::collections::BTreeSet::new();
        let mut at = 0;
        while at < file.len() {
            let word = u32::from_be_bytes(file[at + 1..at + 5].try_into().unwrap());
            tags.insert(file[at]);
            at += 5;
            if (128..192).contains(&file[at - 5]) {
                at += word as usize;
            }
        }
        tags
    };
    let new = [14, 15, 68, 69, 133, 195, 229];
    let mounts = tags(&record_mounts().file);
    assert!(new.iter().all(|tag| mounts.contains(tag)));
    for file in [record().file, record_searches().file] {
        let old = tags(&file);
        assert!(new.iter().all(|tag| !old.contains(tag)));
    }
}

/// Where the first row of this tag and this word starts, after `from`.
fn row_at(file: &[u8], from: usize, tag: u8, word: Option<u32>) -> usize {
    let mut at = 0;
    loop {
        let number = u32::from_be_bytes(file[at + 1..at + 5].try_into().unwrap());
        if at > from && file[at] == tag && word.is_none_or(|word| word == number) {
            return at;
        }
        at += 5;
        if (128..192).contains(&file[at - 5]) {
            at += number as usize;
        }
    }
}

#[test]
fn replay_finds_altered_files() {
    let file = record().file;
    let altered = |at: usize, with: u8| {
        let mut file = file.clone();
        file[at] ^= with;
        replay(&file, &mut Own).map(|(_, differences)| differences)
    };
    let middle = file.len() / 2;
    let reply = row_at(&file, middle, 130, None);
    let length = row_at(&file, middle, 64, None);
    let call = row_at(&file, middle, 226, Some(0));
    let refused = row_at(&file, 0, 226, Some(5));
    let converted = row_at(&file, 0, 227, Some(0));
    let not_converted = row_at(&file, 0, 227, Some(1));
    let old = row_at(&file, 0, 131, None);
    // A byte of a reply, an answer's length and number, a byte of an old image,
    // both halves of a digest, and offsets.
    for at in [
        reply + 5 + 24,
        length + 4,
        call + 4,
        refused + 4,
        converted + 4,
        not_converted + 4,
        old + 5 + 3,
        row_at(&file, middle, 65, None) + 1,
        row_at(&file, middle, 66, None) + 4,
        row_at(&file, 0, 70, None) + 4,
        row_at(&file, middle, 70, None) + 1,
        row_at(&file, middle, 226, Some(8)) + 4,
    ] {
        assert!(altered(at, 1).unwrap() > 0, "row at {at}");
    }
    // An unknown number, buffer, kind of row and entry; a run's number; more
    // lent than there is; bytes outside of what is lent; a wrong count of runs.
    let number = row_at(&file, middle, 4, None);
    for (at, with) in [
        (number, 4 ^ 16),
        (length, 64 ^ 71),
        (reply, 130 ^ 134),
        (number, 4 ^ 196),
        (call, 226 ^ 230),
        (row_at(&file, middle, 192, None) + 4, 1),
        (row_at(&file, middle, 0, None) + 1, 1),
        (row_at(&file, middle, 1, None) + 2, 1),
        (row_at(&file, middle, 3, None) + 1, 1),
        (row_at(&file, middle, 12, None) + 1, 1),
        (file.len() - 1, 1),
    ] {
        assert_eq!(altered(at, with), None, "row at {at}");
    }
    // A file that is cut, inside a row or between two.
    for cut in [1, 5, middle] {
        assert!(replay(&file[..file.len() - cut], &mut Own).is_none());
    }
}

#[test]
fn replay_finds_altered_searches() {
    let file = record_searches().file;
    let altered = |at: usize, with: u8| {
        let mut file = file.clone();
        file[at] ^= with;
        replay(&file, &mut Own).map(|(_, differences)| differences)
    };
    let middle = file.len() / 2;
    let none = row_at(&file, middle, 228, Some(0));
    let found = row_at(&file, middle, 228, Some(1));
    let pairs = row_at(&file, middle, 67, None);
    // The name of three bytes is searched twice, at first without being there.
    let name = row_at(&file, row_at(&file, 0, 129, Some(3)), 129, Some(3));
    // A record that is not found, none or another where one is; the count of
    // pairs; a byte of a name; a directory; what stays of the store and reply.
    for (at, with) in [
        (none + 4, 1),
        (found + 4, 1),
        (found + 4, 3),
        (pairs + 4, 1),
        (name + 5, 0x80),
        (row_at(&file, 0, 13, Some(1)) + 4, 1),
        (row_at(&file, middle, 64, Some(0)) + 4, 1),
        (row_at(&file, middle, 66, None) + 4, 1),
    ] {
        assert!(altered(at, with).unwrap() > 0, "row at {at}");
    }
    // A text is printed as it stands and makes no difference.
    let text = row_at(&file, 0, 132, None);
    assert_eq!(altered(text + 5, 0x80), Some(0));
    // A text over 160 bytes, a wrong word to print a search, and a search in a
    // store that fails its check.
    let show = row_at(&file, 0, 194, None);
    for (at, with) in [(text + 3, 1), (text + 4, 0xF0), (show + 4, 1)] {
        assert_eq!(altered(at, with), None, "row at {at}");
    }
    let mut spoiled = file[..found].to_vec();
    spoiled.extend([3, 0, 0, 0, 0, 128, 0, 0, 0, 4, 0, 0, 0, 9]);
    spoiled.extend(&file[found..]);
    assert!(replay(&spoiled, &mut Own).is_none());
}

#[test]
fn replay_finds_altered_mounts() {
    let file = record_mounts().file;
    let altered = |at: usize, with: u8| {
        let mut file = file.clone();
        file[at] ^= with;
        replay(&file, &mut Own).map(|(_, differences)| differences)
    };
    let middle = file.len() / 2;
    let row = |tag: u8, word: Option<u32>| row_at(&file, middle, tag, word);
    // An answer, its length and offset, both halves of the table's digest and
    // of the store's, a byte of a reply.
    for (at, with) in [
        (row(229, Some(0)) + 4, 1),
        (row(229, Some(12)) + 4, 1),
        (row(229, Some(8)) + 4, 1),
        (row(64, None) + 4, 1),
        (row(70, None) + 4, 1),
        (row(70, Some(0)) + 1, 1),
        (row(68, None) + 1, 1),
        (row(69, None) + 4, 1),
        (row(65, None) + 1, 1),
        (row(66, None) + 4, 1),
        (row(130, None) + 5 + 3, 1),
    ] {
        assert!(altered(at, with).unwrap() > 0, "row at {at}");
    }
    // More lent than there is, bytes outside of what is lent, a row that
    // makes the table zero with another word, and unknown tags.
    for (at, with) in [
        (row(14, None) + 2, 1),
        (row(195, None) + 4, 1),
        (row(2, None) + 2, 1),
        (row(133, None), 133 ^ 134),
        (row(229, None), 229 ^ 230),
        (row(195, None), 195 ^ 196),
    ] {
        assert_eq!(altered(at, with), None, "row at {at}");
    }
    // The digest of the table is that after the last MOUNT call, whatever is
    // written to the table since; before the first it is 0.
    let last = row_at(&file, 0, 193, None);
    let mut end = file[..last].to_vec();
    end.extend([14, 0, 0, 0, 4, 3, 0, 0, 0, 0, 133, 0, 0, 0, 4, 1, 2, 3, 4]);
    end.extend([225, 0, 0, 0, 0]);
    end.extend(&file[last..]);
    let (_, differences) = replay(&end, &mut Own).unwrap();
    // The reply's length may differ from the check's, which is 0.
    assert!(differences <= 1);
    let check_first = [225, 0, 0, 0, 1, 193, 0, 0, 0, 0];
    let mut first = vec![65];
    first.extend((digest(&[]) >> 32).to_be_bytes()[4..].iter());
    first.push(66);
    first.extend((digest(&[]) as u32).to_be_bytes());
    first.extend(check_first);
    assert_eq!(replay(&first, &mut Own).unwrap().1, 0);
}

/// Row by row: the texts are at most 160 bytes, each printed search has its own
/// text, and each store is checked before it is searched.
#[test]
fn rows_of_the_searches() {
    let file = record_searches().file;
    let (mut at, mut checked, mut texts, mut shown, mut searches) = (0, false, 0, 0, 0);
    let mut searched_since_text = 0;
    while at < file.len() {
        let word = u32::from_be_bytes(file[at + 1..at + 5].try_into().unwrap());
        let tag = file[at];
        at += 5;
        if (128..192).contains(&tag) {
            at += word as usize;
        }
        match tag {
            132 => {
                assert!(word <= 160);
                texts += 1;
                searched_since_text = 0;
            }
            194 => {
                assert_eq!((word, searched_since_text), (0, 1));
                shown += 1;
            }
            225 => {
                assert_eq!(word, 0);
                checked = true;
            }
            228 => {
                assert!(checked);
                searches += 1;
                searched_since_text += 1;
            }
            128 | 192 => checked = false,
            227 => panic!("a conversion"),
            _ => {}
        }
    }
    assert!(shown >= 80 && texts > shown && searches >= 12_000 + shown);
}

/// Finds as the peer does, but counts one pair too many in one search, and in
/// another finds nothing.
struct Miscounting {
    searches: usize,
}

impl Subject for Miscounting {
    fn format(&mut self, store: &mut [u8], plan: &Format) -> Answer {
        Own.format(store, plan)
    }

    fn check(&mut self, store: &[u8]) -> Answer {
        Own.check(store)
    }

    fn call(&mut self, store: &mut [u8], call: &Call<'_>, reply: &mut [u8]) -> Answer {
        Own.call(store, call, reply)
    }

    fn convert(&mut self, old: &[u8], store: &mut [u8]) -> Answer {
        Own.convert(old, store)
    }

    fn mount(
        &mut self,
        store: &[u8],
        table: &mut [u8],
        mount: &Mount<'_>,
        reply: &mut [u8],
    ) -> Answer {
        Own.mount(store, table, mount, reply)
    }

    fn search(&mut self, store: &[u8], directory: u32, name: &[u8]) -> Option<Search> {
        let mut search = Own.search(store, directory, name)?;
        self.searches += 1;
        search.compared += u32::from(self.searches == 3);
        search.found = search.found.filter(|_| self.searches != 2);
        Some(search)
    }
}

#[test]
fn replay_finds_a_miscounted_search() {
    let recording = record_searches();
    let mut subject = Miscounting { searches: 0 };
    let (text, differences) = replay(&recording.file, &mut subject).unwrap();
    // The count is compared after the LOOKUP behind the search, too.
    assert_eq!(differences, 3);
    let text = String::from_utf8(text).unwrap();
    assert!(text.contains("  one name, found, tag in directory 0: no record, 3 pairs\n"));
    assert!(text.contains("tags in directory 0: no record, 1 pairs\n"));
    assert!(text.ends_with(" searches, 0 mounts, 3 differences\n"));
}

/// Changes the outcome of a call: store, reply space, answer.
type Spoil = fn(&mut [u8], &mut [u8], &mut Answer);

/// Five ways to differ, at the calls 10, 20, 30, 40 and 50.
const SPOILS: [Spoil; 5] = [
    |_, _, answer| answer.number = 5,
    |_, _, answer| answer.length += 4,
    |_, reply, _| {
        if let Some(last) = reply.last_mut() {
            *last ^= 1;
        }
    },
    |_, reply, _| {
        if let Some(first) = reply.first_mut() {
            *first ^= 1;
        }
    },
    |store, _, _| {
        if let Some(last) = store.last_mut() {
            *last ^= 1;
        }
    },
];

/// Answers as the peer does, but for the spoiled calls and one conversion.
struct Spoiled {
    calls: usize,
    conversions: usize,
    mounts: usize,
}

impl Subject for Spoiled {
    fn format(&mut self, store: &mut [u8], plan: &Format) -> Answer {
        Own.format(store, plan)
    }

    fn check(&mut self, store: &[u8]) -> Answer {
        Own.check(store)
    }

    fn call(&mut self, store: &mut [u8], call: &Call<'_>, reply: &mut [u8]) -> Answer {
        let mut answer = Own.call(store, call, reply);
        self.calls += 1;
        if self.calls.is_multiple_of(10) {
            if let Some(spoil) = SPOILS.get(self.calls / 10 - 1) {
                spoil(store, reply, &mut answer);
            }
        }
        answer
    }

    fn convert(&mut self, old: &[u8], store: &mut [u8]) -> Answer {
        let answer = Own.convert(old, store);
        self.conversions += 1;
        if self.conversions == 10 {
            store[0] ^= 1;
        }
        answer
    }

    /// The mounts 100, 200, 300 and 400 are spoiled.
    fn mount(
        &mut self,
        store: &[u8],
        table: &mut [u8],
        mount: &Mount<'_>,
        reply: &mut [u8],
    ) -> Answer {
        let mut answer = Own.mount(store, table, mount, reply);
        self.mounts += 1;
        match self.mounts {
            100 => answer.number ^= 1,
            200 => answer.length ^= 4,
            300 => reply[33_000] ^= 1,
            400 => table[33_000] ^= 1,
            _ => {}
        }
        answer
    }
}

#[test]
fn replay_finds_spoiled_mounts() {
    let mut subject = Spoiled {
        calls: usize::MAX / 2,
        conversions: 0,
        mounts: 0,
    };
    let (_, differences) = replay(&record_mounts().file, &mut subject).unwrap();
    assert!(differences >= 4);
}

#[test]
fn replay_finds_spoiled_calls() {
    let mut subject = Spoiled {
        calls: 0,
        conversions: 0,
        mounts: 0,
    };
    let (text, differences) = replay(&record().file, &mut subject).unwrap();
    assert!(differences >= 6);
    assert!(text.ends_with(format!("{differences} differences\n").as_bytes()));
}

/// Answers as the peer does, but with another offset: of broken calls, of calls
/// that are not, or of the other entries.
struct Misplaced {
    of_broken: bool,
    of_whole: bool,
    of_others: bool,
    changed: u64,
}

impl Misplaced {
    fn change(&mut self, mut answer: Answer, wanted: bool) -> Answer {
        if wanted {
            answer.offset ^= 4;
            self.changed += 1;
        }
        answer
    }

    fn call_answer(&mut self, answer: Answer) -> Answer {
        let wanted = if answer.offset == 0 {
            self.of_whole
        } else {
            self.of_broken
        };
        self.change(answer, wanted)
    }
}

impl Subject for Misplaced {
    fn format(&mut self, store: &mut [u8], plan: &Format) -> Answer {
        let answer = Own.format(store, plan);
        self.change(answer, self.of_others)
    }

    fn check(&mut self, store: &[u8]) -> Answer {
        let answer = Own.check(store);
        self.change(answer, self.of_others)
    }

    fn call(&mut self, store: &mut [u8], call: &Call<'_>, reply: &mut [u8]) -> Answer {
        let answer = Own.call(store, call, reply);
        self.call_answer(answer)
    }

    fn convert(&mut self, old: &[u8], store: &mut [u8]) -> Answer {
        let answer = Own.convert(old, store);
        self.change(answer, self.of_others)
    }

    fn mount(
        &mut self,
        store: &[u8],
        table: &mut [u8],
        mount: &Mount<'_>,
        reply: &mut [u8],
    ) -> Answer {
        let answer = Own.mount(store, table, mount, reply);
        self.call_answer(answer)
    }
}

/// The offset is compared after every entry of every file.
#[test]
fn replay_finds_other_offsets() {
    let files = [record().file, record_searches().file, record_mounts().file];
    let subject = |of_broken, of_whole, of_others| Misplaced {
        of_broken,
        of_whole,
        of_others,
        changed: 0,
    };
    for (file, broken) in files.iter().zip([7000, 0, 2000]) {
        for (mut subject, least) in [
            (subject(true, false, false), broken),
            (subject(false, true, false), 500),
            (subject(false, false, true), 100),
        ] {
            let (_, differences) = replay(file, &mut subject).unwrap();
            assert_eq!(differences, subject.changed);
            assert!(differences >= least, "{differences}");
        }
    }
}

/// Row by row: an offset is written only where it changes, and starts as 0.
#[test]
fn rows_of_offsets() {
    for (file, least) in [
        (record().file, 2000),
        (record_searches().file, 0),
        (record_mounts().file, 500),
    ] {
        let (mut at, mut offset, mut rows) = (0, 0, 0);
        while at < file.len() {
            let word = u32::from_be_bytes(file[at + 1..at + 5].try_into().unwrap());
            let tag = file[at];
            at += 5;
            if (128..192).contains(&tag) {
                at += word as usize;
            }
            if tag == 70 {
                assert_ne!(word, offset);
                assert!(word <= 8192);
                offset = word;
                rows += 1;
            }
        }
        assert!(rows >= least, "{rows}");
    }
}
