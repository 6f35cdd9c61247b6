//! Where a call is broken, written down a second time: tables of what a header
//! and the arguments of each procedure hold, walked over the bytes of the call.
//! Nothing here is code of the entries.

use std::collections::{BTreeMap, BTreeSet};
use std::fmt::Write;

use super::driver::{Call, Mount};
use Kind::{Bytes, Choice, Variable};

/// An item of a call.
enum Kind {
    /// A number or an opaque item of so many bytes.
    Bytes(usize),
    /// A length, that many bytes and their padding; at most so many bytes.
    Variable(u64),
    /// A boolean, an enum or a discriminant: what follows each of its values.
    Choice(&'static [&'static [Kind]]),
}

const NUMBER: Kind = Bytes(4);
const LONG: Kind = Bytes(8);
const HANDLE: Kind = Variable(64);
const TEXT: Kind = Variable(u64::MAX);
const PATH: Kind = Variable(1024);
const AUTH: Kind = Variable(400);

/// From the RPC version on.
const HEADER: &[Kind] = &[NUMBER, NUMBER, NUMBER, NUMBER, NUMBER, AUTH, NUMBER, AUTH];

const GIVEN: Kind = Choice(&[&[], &[NUMBER]]);
const GIVEN_SIZE: Kind = Choice(&[&[], &[LONG]]);
const GIVEN_TIME: Kind = Choice(&[&[], &[], &[NUMBER, NUMBER]]);
const ATTRIBUTES: &[Kind] = &[GIVEN, GIVEN, GIVEN, GIVEN_SIZE, GIVEN_TIME, GIVEN_TIME];
const GUARD: Kind = Choice(&[&[], &[NUMBER, NUMBER]]);
const STABLE: Kind = Choice(&[&[], &[], &[]]);
const HOW: Kind = Choice(&[ATTRIBUTES, ATTRIBUTES, &[LONG]]);

/// The arguments of the NFS procedures, in parts; `None` where they stay
/// unread.
const NFS: [Option<&[&[Kind]]>; 22] = [
    Some(&[]),
    Some(&[&[HANDLE]]),
    Some(&[&[HANDLE], ATTRIBUTES, &[GUARD]]),
    Some(&[&[HANDLE, TEXT]]),
    Some(&[&[HANDLE, NUMBER]]),
    None,
    Some(&[&[HANDLE, LONG, NUMBER]]),
    Some(&[&[HANDLE, LONG, NUMBER, STABLE, TEXT]]),
    Some(&[&[HANDLE, TEXT, HOW]]),
    Some(&[&[HANDLE, TEXT], ATTRIBUTES]),
    None,
    None,
    Some(&[&[HANDLE, TEXT]]),
    Some(&[&[HANDLE, TEXT]]),
    Some(&[&[HANDLE, TEXT, HANDLE, TEXT]]),
    Some(&[&[HANDLE, HANDLE, TEXT]]),
    Some(&[&[HANDLE, LONG, LONG, NUMBER]]),
    None,
    Some(&[&[HANDLE]]),
    Some(&[&[HANDLE]]),
    Some(&[&[HANDLE]]),
    Some(&[&[HANDLE, LONG, NUMBER]]),
];

/// The arguments of the MOUNT procedures.
const MOUNT: [Option<&[&[Kind]]>; 6] = [
    Some(&[]),
    Some(&[&[PATH]]),
    Some(&[]),
    Some(&[&[PATH]]),
    Some(&[]),
    Some(&[]),
];

/// What is the matter with a call.
#[derive(Clone, Copy, PartialEq, Eq, Debug)]
pub struct Place {
    /// The answer of the entry: 0, 5, 7, 8 or 9.
    pub number: u32,
    /// Where the faulty item starts, or 0. With number 0 it is that of a call
    /// answered GARBAGE_ARGS.
    pub offset: u32,
    /// The kind of that item.
    pub item: &'static str,
}

const fn sound(number: u32) -> Place {
    Place {
        number,
        offset: 0,
        item: "",
    }
}

fn word(call: &[u8], at: usize) -> Option<u64> {
    let bytes = call.get(at..at + 4)?;
    let sum = bytes
        .iter()
        .fold(0, |sum, &byte| 256 * sum + u64::from(byte));
    Some(sum)
}

/// Where the items end that start at a byte, or the place and kind of the first
/// that is faulty.
fn walk(kinds: &[Kind], call: &[u8], mut at: usize) -> Result<usize, (usize, &'static str)> {
    for kind in kinds {
        let next = word(call, at);
        at = match kind {
            Bytes(count) if at + count > call.len() => {
                let item = if *count == 4 { "4 bytes" } else { "8 bytes" };
                return Err((at, item));
            }
            Bytes(count) => at + count,
            Variable(most) => {
                let end = |length: u64| at as u64 + 4 + length.div_ceil(4) * 4;
                match next.filter(|length| length <= most && end(*length) <= call.len() as u64) {
                    Some(length) => end(length) as usize,
                    None => return Err((at, "variable length")),
                }
            }
            Choice(arms) => match next.and_then(|value| arms.get(value as usize)) {
                Some(arm) => walk(arm, call, at + 4)?,
                None => return Err((at, "boolean or enum")),
            },
        };
    }
    Ok(at)
}

/// The names of the header's items by their offsets, as long as the credential
/// is empty.
pub const HEADER_ITEMS: [&str; 8] = [
    "RPC version",
    "program",
    "version",
    "procedure",
    "credential's flavor",
    "credential",
    "verifier's flavor",
    "verifier",
];

/// The place of a call whose program is served with these arguments.
fn place(call: &[u8], program: u64, arguments: &[Option<&[&[Kind]]>]) -> Place {
    if call.len() < 8 {
        return sound(5);
    }
    if word(call, 4) != Some(0) {
        return sound(7);
    }
    if word(call, 8).is_some_and(|version| version != 2) {
        return sound(0);
    }
    let mut at = match walk(HEADER, call, 8) {
        Ok(end) => end,
        Err((at, _)) => {
            let overlong = word(call, at).is_some_and(|length| length > 400);
            let credential = word(call, 28).map_or(0, |length| length.div_ceil(4) * 4);
            let before = if at > 28 { credential as usize } else { 0 };
            return Place {
                number: if overlong { 9 } else { 8 },
                offset: at as u32,
                item: HEADER_ITEMS[(at - before) / 4 - 2],
            };
        }
    };
    let served = word(call, 12) == Some(program) && word(call, 16) == Some(3);
    let number = word(call, 20).filter(|_| served);
    let Some(&Some(parts)) = number.and_then(|number| arguments.get(number as usize)) else {
        return sound(0);
    };
    let fault = |at: usize, item| Place {
        number: 0,
        offset: at as u32,
        item,
    };
    for part in parts {
        at = match walk(part, call, at) {
            Ok(end) => end,
            Err((at, item)) => return fault(at, item),
        };
    }
    if at < call.len() {
        fault(at, "left over")
    } else {
        sound(0)
    }
}

/// The place of a call at the NFS entry, whatever it is lent beside.
pub fn nfs(call: &[u8]) -> Place {
    place(call, 100_003, &NFS)
}

/// The place of a call at the MOUNT entry, whatever it is lent beside.
pub fn mount(call: &[u8]) -> Place {
    place(call, 100_005, &MOUNT)
}

/// What the NFS entry must answer for a call on this store.
pub fn of_call(call: &Call<'_>, store: &[u8]) -> Place {
    if call.space < 4224 {
        sound(2)
    } else if call.nanoseconds >= 1_000_000_000 {
        sound(3)
    } else if call.bytes.len() > 8192 {
        sound(4)
    } else if crate::check(store).number != 0 {
        sound(1)
    } else {
        nfs(call.bytes)
    }
}

/// What the MOUNT entry must answer for a call with this store and table.
pub fn of_mount(call: &Mount<'_>, store: &[u8], table: &[u8]) -> Place {
    if call.space < 33_692 {
        sound(2)
    } else if call.bytes.len() > 8192 {
        sound(4)
    } else if crate::check(store).number != 0 {
        sound(1)
    } else if super::mounts::tables::read(table).is_none() {
        sound(12)
    } else {
        mount(call.bytes)
    }
}

/// Calls that are broken, by answer, by procedure for GARBAGE_ARGS, and by
/// item: how many, and their offsets.
#[derive(Default)]
pub struct Counts(BTreeMap<Key, (u64, BTreeSet<u32>)>);

/// Answer, procedure and item.
type Key = (u32, Option<u32>, &'static str);

impl Counts {
    /// Counts a call that no earlier test has refused.
    pub fn add(&mut self, place: Place, call: &[u8]) {
        if place == sound(0) {
            return;
        }
        let procedure = word(call, 20).filter(|_| place.number == 0);
        let key = (
            place.number,
            procedure.map(|number| number as u32),
            place.item,
        );
        let (count, offsets) = self.0.entry(key).or_default();
        *count += 1;
        offsets.insert(place.offset);
    }

    /// What should have been reached and was not; `names` are those of the
    /// procedures, and some stay unread.
    pub fn missing(&self, names: &[&str], unread: &[usize]) -> Vec<String> {
        let mut wanted: Vec<Key> = vec![(5, None, ""), (7, None, "")];
        wanted.extend(HEADER_ITEMS.map(|item| (8, None, item)));
        wanted.extend([5, 7].map(|at| (9, None, HEADER_ITEMS[at])));
        let read = (0..names.len()).filter(|number| !unread.contains(number));
        wanted.extend(read.map(|number| (0, Some(number as u32), "left over")));
        let missing = wanted.into_iter().filter(|key| !self.0.contains_key(key));
        missing
            .map(|(number, procedure, item)| {
                let name = procedure.map_or("", |number| names[number as usize]);
                format!("place: answer {number} {name} {item}")
            })
            .collect()
    }

    /// The table as text.
    pub fn table(&self, title: &str, names: &[&str]) -> String {
        let mut text = format!("\n## {title}\n\n");
        text.push_str(
            "| answer | faulty item | calls | different offsets |\n|---:|---|---:|---:|\n",
        );
        for ((number, procedure, item), (count, offsets)) in &self.0 {
            let (number, name) = match procedure {
                Some(procedure) => ("GARBAGE_ARGS".to_owned(), names[*procedure as usize]),
                None => (number.to_string(), ""),
            };
            let item = format!("{name} {item}");
            let offsets = offsets.iter().filter(|&&offset| offset != 0).count();
            let _ = writeln!(text, "| {number} | {} | {count} | {offsets} |", item.trim());
        }
        text
    }
}
