//! Counting what MOUNT calls reach.

use std::collections::BTreeMap;
use std::fmt::Write;

use super::super::coverage::{outcome_of, status_name, OUTCOMES};
use super::super::driver::{Mount, Outcome};
use super::super::lane::status_of;
use super::super::places;
use super::tables::{self, DAMAGES};
use crate::layout::word;
use crate::numbers::{mount_procedure, Status};

pub const PROCEDURE_NAMES: [&str; 6] = ["NULL", "MNT", "DUMP", "UMNT", "UMNTALL", "EXPORT"];

/// Every status that the papers give for MNT.
pub const STATUSES: [Status; 7] = [
    Status::OK,
    Status::NOENT,
    Status::ACCES,
    Status::NOTDIR,
    Status::INVAL,
    Status::NAMETOOLONG,
    Status::SERVERFAULT,
];

/// The answers of the entry: those that the call does not decide, in the order
/// of their tests, then the header's, of which a call has at most one, then 0.
pub const ANSWERS: [u32; 9] = [2, 4, 1, 12, 5, 7, 8, 9, 0];

/// Counters of what has been reached.
#[derive(Default)]
pub struct Mounts {
    answers: BTreeMap<u32, u64>,
    outcomes: BTreeMap<usize, u64>,
    /// Calls that succeed, by procedure; MNT by its status.
    done: BTreeMap<(u32, Option<u32>), u64>,
    garbage: BTreeMap<u32, u64>,
    /// Where calls are broken.
    places: places::Counts,
    /// Tables before the calls.
    states: BTreeMap<&'static str, u64>,
}

impl Mounts {
    /// How many calls there were.
    pub fn calls(&self) -> u64 {
        self.answers.values().sum()
    }

    /// Counts the table that a call is given.
    pub fn before(&mut self, table: &[u8]) {
        *self.states.entry(tables::state_of(table)).or_default() += 1;
    }

    /// Counts what a call came to.
    pub fn after(&mut self, mount: &Mount<'_>, outcome: &Outcome) {
        *self.answers.entry(outcome.answer.number).or_default() += 1;
        if [0, 5, 7, 8, 9].contains(&outcome.answer.number) {
            self.places.add(places::mount(mount.bytes), mount.bytes);
        }
        if outcome.answer.number != 0 {
            return;
        }
        let place = outcome_of(&outcome.reply);
        *self.outcomes.entry(place).or_default() += 1;
        if place < 4 {
            return;
        }
        let procedure = word(mount.bytes, 20);
        if place == 4 {
            *self.garbage.entry(procedure).or_default() += 1;
        } else {
            let status = status_of(&outcome.reply);
            let status = status.filter(|_| procedure == mount_procedure::MNT);
            *self.done.entry((procedure, status)).or_default() += 1;
        }
    }

    /// What should have been reached and was not.
    pub fn missing(&self) -> Vec<String> {
        let mut missing = self.places.missing(&PROCEDURE_NAMES, &[]);
        for number in ANSWERS {
            if !self.answers.contains_key(&number) {
                missing.push(format!("mount answer {number}"));
            }
        }
        for (place, name) in OUTCOMES.iter().enumerate() {
            if !self.outcomes.contains_key(&place) {
                missing.push(format!("mount: {name}"));
            }
        }
        for (number, name) in PROCEDURE_NAMES.iter().enumerate() {
            let number = number as u32;
            let reached = self.done.keys().any(|key| key.0 == number);
            if !reached || !self.garbage.contains_key(&number) {
                missing.push(format!("mount: {name} done and GARBAGE_ARGS"));
            }
        }
        for status in STATUSES {
            let key = (mount_procedure::MNT, Some(status.0));
            if !self.done.contains_key(&key) {
                missing.push(format!("MNT {}", status_name(status.0)));
            }
        }
        let good = [tables::EMPTY, tables::MIXED, tables::FULL];
        let damaged = DAMAGES.iter().map(|damage| damage.label());
        for state in good.into_iter().chain(damaged) {
            if !self.states.contains_key(state) {
                missing.push(format!("mount table: {state}"));
            }
        }
        missing
    }

    /// Statuses that the papers do not give for MNT.
    pub fn unexpected(&self) -> Vec<String> {
        let statuses = self.done.keys().filter_map(|&(_, status)| status);
        statuses
            .filter(|&status| !STATUSES.contains(&Status(status)))
            .map(|status| format!("MNT {status}"))
            .collect()
    }

    /// The tables as text.
    pub fn tables(&self) -> String {
        let mut text = String::new();
        let mut table = |title: &str, lines: Vec<(String, u64)>| {
            let _ = write!(text, "\n## {title}\n\n| what | calls |\n|---|---:|\n");
            for (what, count) in lines {
                let _ = writeln!(text, "| {what} | {count} |");
            }
        };
        let name = |number: u32| PROCEDURE_NAMES[number as usize];
        table(
            "MOUNT by procedure and status",
            self.done
                .iter()
                .map(|(&(number, status), &count)| {
                    let status = status.map_or("(none)", status_name);
                    (format!("{} {status}", name(number)), count)
                })
                .collect(),
        );
        table(
            "MOUNT, GARBAGE_ARGS by procedure",
            self.garbage
                .iter()
                .map(|(&number, &count)| (name(number).to_owned(), count))
                .collect(),
        );
        table(
            "MOUNT by RPC outcome",
            self.outcomes
                .iter()
                .map(|(&place, &count)| (OUTCOMES[place].to_owned(), count))
                .collect(),
        );
        table(
            "MOUNT by answer number",
            self.answers
                .iter()
                .map(|(number, &count)| (number.to_string(), count))
                .collect(),
        );
        table(
            "MOUNT by state of the table before the call",
            self.states
                .iter()
                .map(|(state, &count)| ((*state).to_owned(), count))
                .collect(),
        );
        let title = "Where MOUNT calls are broken";
        text.push_str(&self.places.table(title, &PROCEDURE_NAMES));
        text
    }
}
