//! The file of searches: a table that a replay prints, and seeded searches.

mod seeded;
mod table;

use super::lane::Lane;
use super::rules;
use super::scripts::Runs;
use crate::Search;

pub use seeded::kinds;

/// The group of labels for the table, by title of the store.
const TABLE: &str = "Searches of the table";
/// The group of labels for seeded searches.
pub const SEEDED: &str = "Seeded searches by kind";
/// The group of labels for the stores that they go through.
pub const STORES: &str = "Stores of the seeded searches";
/// The group of labels for the names in these stores.
const STYLES_OF_NAMES: &str = "Names in the stores of the seeded searches";
/// The fewest seeded searches and stores.
pub const LEAST_SEEDED: u64 = 12_000;
pub const LEAST_STORES: u64 = 100;

/// Every run of the file.
pub fn all(runs: &mut Runs<'_>, seed: u64) {
    table::all(runs);
    seeded::all(runs, seed);
}

/// The search as the papers define it, over the bytes of a sound store.
fn by_the_papers(store: &[u8], directory: u32, name: &[u8]) -> Search {
    let word = |at: usize| {
        let field = store[at..at + 4].iter();
        field.fold(0, |number, &byte| 256 * number + u32::from(byte))
    };
    let names_at = 12 + 92 * word(8) as usize;
    let mut compared = 0;
    for record in 0..word(names_at) as usize {
        let at = names_at + 4 + 44 * record;
        let text = &store[at + 12..at + 12 + word(at + 8) as usize];
        if text.is_empty() || word(at) != directory || text.len() != name.len() {
            continue;
        }
        let differs = (0..text.len()).find(|&pair| text[pair] != name[pair]);
        compared += differs.map_or(text.len(), |pair| pair + 1) as u32;
        if differs.is_none() {
            return Search {
                found: Some(record),
                compared,
            };
        }
    }
    Search {
        found: None,
        compared,
    }
}

/// Searches, and holds the result against the definition.
fn search(lane: &mut Lane<'_>, directory: u32, name: &[u8]) -> Search {
    let search = lane.driver.search(directory, name);
    let defined = by_the_papers(lane.driver.store(), directory, name);
    assert_eq!(search, defined, "{name:?} in {directory}");
    search
}

/// Checks the store, which is sound.
fn check(lane: &mut Lane<'_>) {
    assert_eq!(lane.driver.check().number, 0);
}

/// Counts a rule that the script has just seen hold.
fn rule(lane: &mut Lane<'_>, label: &str) {
    assert!(rules::searches().contains(&label), "{label}");
    lane.driver.note(rules::SEARCH_GROUP, label);
}
