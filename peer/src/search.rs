//! The search for a name in a directory, which counts the byte pairs that it
//! compares.

use crate::check::Survey;
use crate::layout::*;

/// What a search comes to.
#[derive(Clone, Copy, PartialEq, Eq, Debug, Default)]
pub struct Search {
    /// The number of the name record that matches.
    pub found: Option<usize>,
    /// How many byte pairs were compared.
    pub compared: u32,
}

/// Searches the records for the name in the directory, in ascending order.
///
/// Records of other directories and free ones are passed over. Of the others
/// the lengths are compared first, and only where they are equal the bytes, up
/// to and including the first pair that differs.
pub(crate) fn search_records(records: &[[u8; NAME_BYTES]], directory: u32, name: &[u8]) -> Search {
    // A used record has 1 to 32 bytes, a free one has length 0.
    let Some((first, rest)) = name.split_first().filter(|_| name.len() <= MAX_NAME) else {
        return Search::default();
    };
    let length = name.len() as u32;
    let mut compared = 0;
    for (number, record) in records.iter().enumerate() {
        if word(record, name_field::DIRECTORY) != directory
            || word(record, name_field::LENGTH) != length
        {
            continue;
        }
        // The first pair alone: most names differ there.
        compared += 1;
        if record[name_field::TEXT] != *first {
            continue;
        }
        let equal = equal_pairs(&record[name_field::TEXT + 1..][..rest.len()], rest);
        if equal == rest.len() {
            return Search {
                found: Some(number),
                compared: compared + equal as u32,
            };
        }
        compared += equal as u32 + 1;
    }
    Search {
        found: None,
        compared,
    }
}

/// How many byte pairs are equal before the first that differs. The slices have
/// the same length. The bytes are compared one pair after the other; taking
/// them in groups only saves the counting.
#[inline(always)]
fn equal_pairs(text: &[u8], name: &[u8]) -> usize {
    let mut at = 0;
    while let Some(equal) = equal_in_group::<8>(text, name, at) {
        at += equal;
        if equal < 8 {
            return at;
        }
    }
    if let Some(equal) = equal_in_group::<4>(text, name, at) {
        at += equal;
        if equal < 4 {
            return at;
        }
    }
    while at < name.len() && text[at] == name[at] {
        at += 1;
    }
    at
}

/// The same for the `N` pairs from `at` on, if there are as many.
#[inline(always)]
fn equal_in_group<const N: usize>(text: &[u8], name: &[u8], at: usize) -> Option<usize> {
    let text = text.get(at..)?.first_chunk::<N>()?;
    let name = name.get(at..)?.first_chunk::<N>()?;
    let mut equal = 0;
    while equal < N && text[equal] == name[equal] {
        equal += 1;
    }
    Some(equal)
}

/// A name that is there: its record and the object that it leads to.
#[derive(Clone, Copy)]
pub(crate) struct Found {
    pub record: NameRecord,
    pub object: Object,
}

/// Finds a name in the directory of a checked store.
#[inline]
pub(crate) fn find(store: &[u8], survey: &Survey, directory: Object, name: &[u8]) -> Option<Found> {
    let records = survey.name_records(store);
    let found = search_records(records, directory.0 as u32, name).found?;
    Some(Found {
        record: NameRecord(found),
        object: Object(word(&records[found], name_field::CHILD) as usize),
    })
}

/// Searches a directory of a store for a name. `None` if the store fails its
/// check.
///
/// Nothing is found, with 0 pairs, where the number is not that of a directory,
/// or the name is empty or has over 32 bytes.
pub fn search(store: &[u8], directory: u32, name: &[u8]) -> Option<Search> {
    let mut survey = Survey::new();
    survey
        .fill(store)
        .then(|| search_records(survey.name_records(store), directory, name))
}
