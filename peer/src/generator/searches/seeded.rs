//! Seeded searches through many stores, which are not printed.

use std::collections::BTreeSet;

use super::{check, search, SEEDED, STORES, STYLES_OF_NAMES};
use crate::generator::encode::Attributes;
use crate::generator::lane::*;
use crate::generator::random::Random;
use crate::generator::scripts::Runs;
use crate::generator::vector_file::unlike;
use crate::generator::view::{Named, View};
use crate::layout::*;

/// Kinds of stores, how many of each, and how many searches go through one
/// before its names are changed by calls, and as many again after it.
const PLANS: [(Extent, usize, usize); 4] = [
    (Extent::Small, 90, 46),
    (Extent::Middle, 30, 50),
    (Extent::Full, 16, 70),
    (Extent::Largest, 1, 25),
];

/// How large a store is.
#[derive(Clone, Copy, PartialEq, Eq)]
enum Extent {
    Small,
    Middle,
    /// Every object is live.
    Full,
    /// So it is here, and with all blocks.
    Largest,
}

impl Extent {
    fn label(self) -> &'static str {
        match self {
            Extent::Small => "small, up to 8 objects",
            Extent::Middle => "middle, 9 to 24 objects",
            Extent::Full => "full, 64 objects",
            Extent::Largest => "full, the largest",
        }
    }

    /// The counts of a store, and how many of its objects have a name.
    fn counts(self, random: &mut Random) -> (Shape, usize) {
        let objects = match self {
            Extent::Small => random.between(3, 8),
            Extent::Middle => random.between(9, 24),
            Extent::Full | Extent::Largest => MAX_OBJECTS,
        };
        let (names, blocks) = match self {
            Extent::Small | Extent::Middle => (objects + random.below(objects), random.below(2)),
            Extent::Full => (random.pick(&[63, 64, 100, 128]), 0),
            Extent::Largest => (MAX_NAMES, MAX_BLOCKS),
        };
        let used = match self {
            Extent::Small | Extent::Middle => random.between(objects / 2, objects - 1),
            Extent::Full | Extent::Largest => objects - 1,
        };
        let shape = Shape {
            objects,
            names,
            blocks,
        };
        (shape, used)
    }
}

/// How the names of a store are made.
#[derive(Clone, Copy)]
enum Style {
    /// One to six of a few letters.
    Letters,
    /// One length, two letters.
    Alike,
    /// A long common prefix, then two letters.
    Prefix,
    /// 32 bytes, of which one or two are unlike.
    Longest,
    /// Bag tags of ten digits, with and without leading zeros.
    Tags,
    /// Bytes at the ends of their range.
    HighBytes,
}

const STYLES: [Style; 6] = [
    Style::Letters,
    Style::Alike,
    Style::Prefix,
    Style::Longest,
    Style::Tags,
    Style::HighBytes,
];

/// A source of names for one store.
struct Names {
    style: Style,
    length: usize,
    common: Vec<u8>,
}

impl Style {
    fn label(self) -> &'static str {
        match self {
            Style::Letters => "one to six of three letters",
            Style::Alike => "one length, two letters",
            Style::Prefix => "a common prefix of 12 to 24 bytes",
            Style::Longest => "32 bytes, one or two of them unlike",
            Style::Tags => "bag tags with and without leading zeros",
            Style::HighBytes => "bytes 1, 127, 128 and 255",
        }
    }
}

impl Names {
    fn new(style: Style, random: &mut Random) -> Names {
        Names {
            style,
            length: random.between(6, 12),
            common: (0..MAX_NAME).map(|_| random.pick(b"abxyz019")).collect(),
        }
    }

    fn make(&self, random: &mut Random) -> Vec<u8> {
        let mut of = |bytes: &[u8], count: usize| -> Vec<u8> {
            (0..count).map(|_| random.pick(bytes)).collect()
        };
        match self.style {
            Style::Letters => {
                let count = 1 + of(&[0, 1, 2, 3, 4, 5], 1)[0] as usize;
                of(b"abc", count)
            }
            Style::Alike => of(b"ab", self.length),
            Style::Prefix => [&self.common[..2 * self.length], &of(b"pqrs", 3)[..]].concat(),
            Style::Longest => {
                let mut name = self.common.clone();
                for _ in 0..random.between(1, 2) {
                    let at = random.pick(&[0, 7, 8, 15, 16, 30, 31]);
                    name[at] = random.pick(b"ABCDEFGHIJ");
                }
                name
            }
            Style::Tags => {
                let digits = format!("{:010}", 123_456_700 + random.below(60));
                let zeros = random.pick(&[0, 0, 1]);
                digits.as_bytes()[zeros..].to_vec()
            }
            Style::HighBytes => {
                let count = random.between(1, 4);
                (0..count)
                    .map(|_| random.pick(&[1, 127, 128, 255]))
                    .collect()
            }
        }
    }
}

/// A number from 0 to `count` - 1 for each place, in any order.
fn shuffled(random: &mut Random, count: usize) -> Vec<usize> {
    let mut numbers: Vec<usize> = (0..count).collect();
    for at in (1..count).rev() {
        numbers.swap(at, random.below(at + 1));
    }
    numbers
}

/// A store with these counts and names, written as bytes: some objects are
/// directories, and objects and records are in no order.
fn filled(store: &[u8], shape: Shape, used: usize, names: &Names, random: &mut Random) -> Vec<u8> {
    let mut bytes = store.to_vec();
    let objects = shuffled(random, shape.objects - 1);
    let records = shuffled(random, shape.names);
    let inner = random.below(used.min(7)) + 1;
    let mut directories = vec![0];
    let mut taken = BTreeSet::new();
    let mut known: Vec<Vec<u8>> = Vec::new();
    for number in 0..used {
        let child = objects[number] + 1;
        let (directory, name) = loop {
            let name = if known.is_empty() || random.once_in(2) {
                names.make(random)
            } else {
                known[random.below(known.len())].clone()
            };
            let directory = directories[random.below(directories.len())];
            if taken.insert((directory, name.clone())) {
                break (directory, name);
            }
        };
        let at = shape.object_at(Object(child));
        let kind = if number < inner { DIRECTORY } else { REGULAR };
        put_word(&mut bytes, at + object_field::TYPE, kind);
        bytes[at + object_field::BLOCKS..at + object_field::VERIFIER].fill(0xFF);
        let at = shape.name_at(NameRecord(records[number]));
        put_word(&mut bytes, at + name_field::DIRECTORY, directory as u32);
        put_word(&mut bytes, at + name_field::CHILD, child as u32);
        put_word(&mut bytes, at + name_field::LENGTH, name.len() as u32);
        bytes[at + name_field::TEXT..][..name.len()].copy_from_slice(&name);
        known.push(name);
        if kind == DIRECTORY {
            directories.push(child);
        }
    }
    bytes
}

/// Kinds of searches.
#[derive(Clone, Copy, PartialEq, Eq)]
enum Kind {
    There,
    OneByteOff,
    Shorter,
    Longer,
    LeadingZero,
    OtherDirectory,
    Gone,
    Made,
    OddNumber,
    OddName,
}

const KINDS: [Kind; 10] = [
    Kind::There,
    Kind::OneByteOff,
    Kind::Shorter,
    Kind::Longer,
    Kind::LeadingZero,
    Kind::OtherDirectory,
    Kind::Gone,
    Kind::Made,
    Kind::OddNumber,
    Kind::OddName,
];

impl Kind {
    fn label(self, found: bool) -> String {
        let what = match self {
            Kind::There => "a name of the directory",
            Kind::OneByteOff => "one byte off",
            Kind::Shorter => "a byte shorter",
            Kind::Longer => "a byte longer",
            Kind::LeadingZero => "a leading zero more or less",
            Kind::OtherDirectory => "a name of any directory",
            Kind::Gone => "a name that is gone",
            Kind::Made => "a new name of the same style",
            Kind::OddNumber => "not the number of a directory",
            Kind::OddName => "an empty name or one over 32 bytes",
        };
        let end = if found { "found" } else { "not found" };
        format!("{what}, {end}")
    }

    /// Whether a search of this kind may find a record, or none.
    fn may_end(self, found: bool) -> bool {
        match self {
            Kind::There => found,
            Kind::OddNumber | Kind::OddName => !found,
            _ => true,
        }
    }
}

/// Every label of seeded searches that must be reached.
pub fn kinds() -> Vec<String> {
    let both = KINDS.iter().flat_map(|&kind| [(kind, true), (kind, false)]);
    both.filter(|&(kind, found)| kind.may_end(found))
        .map(|(kind, found)| kind.label(found))
        .collect()
}

/// A store that is searched.
struct Searched<'d> {
    lane: Lane<'d>,
    names: Names,
    /// Names that were removed or changed, with their directories.
    gone: Vec<(usize, Vec<u8>)>,
}

impl Searched<'_> {
    fn view(&self) -> View {
        View::of(self.lane.driver.store()).expect("the store passes its check")
    }

    /// A directory's number and a name for a search of this kind.
    fn plan(&self, kind: Kind, view: &View, random: &mut Random) -> Option<(u32, Vec<u8>)> {
        let named = &view.names[random.below(view.names.len())];
        let mut directory = named.directory as u32;
        let mut name = named.name.clone();
        let live: Vec<usize> = view.live.iter().map(|seen| seen.object).collect();
        let directories: Vec<usize> = live
            .iter()
            .copied()
            .filter(|&object| view.is_directory(object))
            .collect();
        match kind {
            Kind::There => {}
            Kind::OneByteOff => {
                let at = random.below(name.len());
                let own: Vec<u8> = view
                    .names
                    .iter()
                    .flat_map(|other| other.name.clone())
                    .collect();
                name[at] = if random.once_in(12) {
                    random.pick(&[0, b'/', 255])
                } else {
                    random.pick(&own)
                };
                if name == named.name {
                    return None;
                }
            }
            Kind::Shorter => {
                let at = random.pick(&[0, name.len() - 1]);
                name.remove(at);
            }
            Kind::Longer => {
                let end = name[random.below(name.len())];
                name.push(end);
            }
            Kind::LeadingZero => match name.strip_prefix(b"0") {
                Some(rest) => name = rest.to_vec(),
                None => name.insert(0, b'0'),
            },
            Kind::OtherDirectory => directory = random.pick(&directories) as u32,
            Kind::Gone => {
                let (number, text) = self.gone.get(random.below(self.gone.len().max(1)))?;
                if !directories.contains(number) {
                    return None;
                }
                directory = *number as u32;
                name.clone_from(text);
            }
            Kind::Made => {
                directory = random.pick(&directories) as u32;
                name = self.names.make(random);
            }
            Kind::OddNumber => {
                let mut numbers: Vec<usize> = (0..view.shape.objects + 3).collect();
                numbers.retain(|number| !directories.contains(number));
                numbers.extend([64, 127, 128, 256, u32::MAX as usize]);
                directory = random.pick(&numbers) as u32;
            }
            Kind::OddName => {
                let count = random.pick(&[0, 33, 34, 64]);
                name = name.iter().copied().cycle().take(count).collect();
            }
        }
        // Dots are not searched.
        (name != b"." && name != b"..").then_some((directory, name))
    }

    /// So many searches, about half of them for names that are there.
    fn searches(&mut self, count: usize, random: &mut Random) {
        check(&mut self.lane);
        let view = self.view();
        let mut left = count;
        while left > 0 {
            let kind = match random.below(20) {
                0..=8 => Kind::There,
                9 | 10 => Kind::OneByteOff,
                11 => Kind::Shorter,
                12 => Kind::Longer,
                13 => Kind::LeadingZero,
                14 | 15 => Kind::OtherDirectory,
                16 => Kind::Gone,
                17 | 18 => Kind::Made,
                _ => random.pick(&[Kind::OddNumber, Kind::OddNumber, Kind::OddName]),
            };
            let Some((directory, name)) = self.plan(kind, &view, random) else {
                continue;
            };
            let found = search(&mut self.lane, directory, &name).found;
            self.lane.driver.note(SEEDED, &kind.label(found.is_some()));
            left -= 1;
        }
    }

    /// Removes, renames and makes names by calls; some are refused. At least
    /// one name stays.
    fn change(&mut self, calls: usize, random: &mut Random) {
        for _ in 0..calls {
            let view = self.view();
            let named = &view.names[random.below(view.names.len())];
            let other = &view.names[random.below(view.names.len())];
            let handle_of = |object: usize| view.handle(object).unwrap_or_default().to_vec();
            let place = handle_of(named.directory);
            let to = handle_of(other.directory);
            let fresh = self.names.make(random);
            let request = match random.below(6) {
                0 | 1 if view.names.len() > 1 && !view.is_directory(named.child) => {
                    remove(&place, &named.name)
                }
                0..=2 => rename(&place, &named.name, &to, &fresh),
                3 => rename(&place, &named.name, &to, &other.name),
                4 => rename(&place, &named.name, &to, &named.name),
                _ => guarded(&to, &fresh, Attributes::default()),
            };
            self.lane.send(&request);
            let after = self.view();
            let there = |old: &Named| {
                let mut names = after.names.iter();
                names.any(|new| new.directory == old.directory && new.name == old.name)
            };
            let gone = view.names.iter().filter(|old| !there(old));
            self.gone
                .extend(gone.map(|old| (old.directory, old.name.clone())));
        }
    }
}

/// Every seeded search.
pub fn all(runs: &mut Runs<'_>, seed: u64) {
    let mut number = 0;
    for (extent, stores, searches) in PLANS {
        for _ in 0..stores {
            number += 1;
            let mut random = Random::part(seed, number);
            store(runs, extent, searches, &mut random);
        }
    }
}

/// The searches through one store.
fn store(runs: &mut Runs<'_>, extent: Extent, searches: usize, random: &mut Random) {
    let (shape, used) = extent.counts(random);
    let names = Names::new(random.pick(&STYLES), random);
    let counts = (shape.objects, shape.names, shape.blocks);
    let lane = runs.open("seeded searches", counts);
    let bytes = filled(lane.driver.store(), shape, used, &names, random);
    for piece in unlike(lane.driver.store(), &bytes) {
        lane.driver.patch(piece.start, &bytes[piece]);
    }
    lane.driver.note(STORES, extent.label());
    lane.driver.note(STYLES_OF_NAMES, names.style.label());
    let mut searched = Searched {
        lane,
        names,
        gone: Vec::new(),
    };
    searched.searches(searches, random);
    searched.change(5, random);
    searched.searches(searches, random);
}
