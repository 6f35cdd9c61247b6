//! Counting what the runs reach.

use std::collections::BTreeMap;
use std::fmt::Write;

use super::driver::Outcome;
use super::lane::status_of;
use super::mounts::counts::Mounts;
use super::places;
use super::random_runs::{link_kinds, meetings, LINKS, RENAMES};
use super::rules;
use super::searches;
use crate::arguments::{How, Place};
use crate::layout::word;
use crate::numbers::{message, procedure, Status};
use crate::rpc::{read_header, Header};
use crate::xdr::Reader;

pub const PROCEDURE_NAMES: [&str; 22] = [
    "NULL",
    "GETATTR",
    "SETATTR",
    "LOOKUP",
    "ACCESS",
    "READLINK",
    "READ",
    "WRITE",
    "CREATE",
    "MKDIR",
    "SYMLINK",
    "MKNOD",
    "REMOVE",
    "RMDIR",
    "RENAME",
    "LINK",
    "READDIR",
    "READDIRPLUS",
    "FSSTAT",
    "FSINFO",
    "PATHCONF",
    "COMMIT",
];

const STATUS_NAMES: [(Status, &str); 18] = [
    (Status::OK, "OK"),
    (Status::NOENT, "NOENT"),
    (Status::ACCES, "ACCES"),
    (Status::EXIST, "EXIST"),
    (Status::NOTDIR, "NOTDIR"),
    (Status::INVAL, "INVAL"),
    (Status::FBIG, "FBIG"),
    (Status::NOSPC, "NOSPC"),
    (Status::MLINK, "MLINK"),
    (Status::NAMETOOLONG, "NAMETOOLONG"),
    (Status::NOTEMPTY, "NOTEMPTY"),
    (Status::STALE, "STALE"),
    (Status::BADHANDLE, "BADHANDLE"),
    (Status::NOT_SYNC, "NOT_SYNC"),
    (Status::BAD_COOKIE, "BAD_COOKIE"),
    (Status::NOTSUPP, "NOTSUPP"),
    (Status::TOOSMALL, "TOOSMALL"),
    (Status::SERVERFAULT, "SERVERFAULT"),
];

pub fn status_name(status: u32) -> &'static str {
    STATUS_NAMES
        .iter()
        .find(|(known, _)| known.0 == status)
        .map_or("unknown", |(_, name)| name)
}

/// The procedures whose arguments stay unread.
const UNREAD: [usize; 4] = [5, 10, 11, 17];

const HANDLE: [Status; 3] = [Status::OK, Status::BADHANDLE, Status::STALE];
const NAME: [Status; 3] = [Status::NOTDIR, Status::ACCES, Status::NAMETOOLONG];

/// Every status that the papers give for an EXCLUSIVE CREATE.
fn expected_of_exclusive() -> impl Iterator<Item = Status> {
    let own = [Status::EXIST, Status::NOSPC];
    HANDLE.into_iter().chain(NAME).chain(own)
}

/// Whether a call that was answered is an EXCLUSIVE CREATE.
fn is_exclusive(call: &[u8]) -> bool {
    let Some(Header::Complete {
        procedure: procedure::CREATE,
        arguments,
        ..
    }) = read_header(call)
    else {
        return false;
    };
    let mut reader = Reader::new(arguments);
    Place::read(&mut reader).is_some() && matches!(How::read(&mut reader), Some(How::Exclusive(_)))
}

/// Every status that the papers give for each procedure.
pub fn expected_pairs() -> Vec<(u32, Status)> {
    let mut pairs = Vec::new();
    let mut add = |number: u32, lists: &[&[Status]]| {
        for list in lists {
            pairs.extend(list.iter().map(|&status| (number, status)));
        }
    };
    add(procedure::GETATTR, &[&HANDLE]);
    add(
        procedure::SETATTR,
        &[&HANDLE, &[Status::NOT_SYNC, Status::INVAL, Status::NOSPC]],
    );
    add(procedure::LOOKUP, &[&HANDLE, &NAME, &[Status::NOENT]]);
    add(procedure::ACCESS, &[&HANDLE]);
    add(procedure::READ, &[&HANDLE, &[Status::INVAL]]);
    add(
        procedure::WRITE,
        &[&HANDLE, &[Status::INVAL, Status::FBIG, Status::NOSPC]],
    );
    add(
        procedure::CREATE,
        &[
            &HANDLE,
            &NAME,
            &[Status::EXIST, Status::INVAL, Status::NOSPC],
        ],
    );
    add(
        procedure::MKDIR,
        &[
            &HANDLE,
            &NAME,
            &[Status::EXIST, Status::INVAL, Status::NOSPC],
        ],
    );
    add(procedure::REMOVE, &[&HANDLE, &NAME, &[Status::NOENT]]);
    add(
        procedure::RMDIR,
        &[
            &HANDLE,
            &NAME,
            &[Status::INVAL, Status::NOENT, Status::NOTEMPTY],
        ],
    );
    add(
        procedure::RENAME,
        &[
            &HANDLE,
            &NAME,
            &[Status::INVAL, Status::NOENT, Status::EXIST],
        ],
    );
    add(
        procedure::LINK,
        &[
            &HANDLE,
            &NAME,
            &[Status::INVAL, Status::EXIST, Status::MLINK, Status::NOSPC],
        ],
    );
    add(
        procedure::READDIR,
        &[
            &HANDLE,
            &[Status::NOTDIR, Status::BAD_COOKIE, Status::TOOSMALL],
        ],
    );
    add(procedure::FSSTAT, &[&HANDLE]);
    add(procedure::FSINFO, &[&HANDLE]);
    add(procedure::PATHCONF, &[&HANDLE]);
    add(procedure::COMMIT, &[&HANDLE, &[Status::INVAL]]);
    for number in [
        procedure::READLINK,
        procedure::SYMLINK,
        procedure::MKNOD,
        procedure::READDIRPLUS,
    ] {
        add(number, &[&[Status::NOTSUPP]]);
    }
    pairs
}

/// The RPC outcomes, in the order of their tests.
pub const OUTCOMES: [&str; 6] = [
    "denied, RPC_MISMATCH",
    "PROG_UNAVAIL",
    "PROG_MISMATCH",
    "PROC_UNAVAIL",
    "GARBAGE_ARGS",
    "SUCCESS",
];

/// Counters of what has been reached.
#[derive(Default)]
pub struct Coverage {
    pub pairs: BTreeMap<(u32, u32), u64>,
    /// Those of EXCLUSIVE CREATE, by status.
    exclusive: BTreeMap<u32, u64>,
    pub null: u64,
    pub garbage: BTreeMap<u32, u64>,
    outcomes: BTreeMap<usize, u64>,
    calls: [u64; 10],
    formats: [u64; 10],
    checks: [u64; 10],
    conversions: [u64; 10],
    /// Where calls are broken.
    places: places::Counts,
    /// Those of MOUNT calls.
    pub mounts: Mounts,
    notes: BTreeMap<&'static str, BTreeMap<String, u64>>,
}

/// Which of the RPC outcomes a reply tells.
pub fn outcome_of(reply: &[u8]) -> usize {
    if word(reply, 8) != message::ACCEPTED {
        return 0;
    }
    match word(reply, 20) {
        message::PROG_UNAVAIL => 1,
        message::PROG_MISMATCH => 2,
        message::PROC_UNAVAIL => 3,
        message::GARBAGE_ARGS => 4,
        _ => 5,
    }
}

impl Coverage {
    pub fn format(&mut self, number: u32) {
        self.formats[number as usize] += 1;
    }

    pub fn check(&mut self, number: u32) {
        self.checks[number as usize] += 1;
    }

    pub fn convert(&mut self, number: u32) {
        self.conversions[number as usize] += 1;
    }

    pub fn note(&mut self, group: &'static str, label: &str) {
        *self
            .notes
            .entry(group)
            .or_default()
            .entry(label.to_owned())
            .or_default() += 1;
    }

    pub fn call(&mut self, call: &[u8], outcome: &Outcome) {
        self.calls[outcome.answer.number as usize] += 1;
        if [0, 5, 7, 8, 9].contains(&outcome.answer.number) {
            self.places.add(places::nfs(call), call);
        }
        if outcome.answer.number != 0 {
            return;
        }
        let place = outcome_of(&outcome.reply);
        *self.outcomes.entry(place).or_default() += 1;
        let number = if place >= 4 { word(call, 20) } else { 0 };
        if place == 4 {
            *self.garbage.entry(number).or_default() += 1;
        } else if place == 5 {
            match status_of(&outcome.reply) {
                Some(status) => {
                    *self.pairs.entry((number, status)).or_default() += 1;
                    if is_exclusive(call) {
                        *self.exclusive.entry(status).or_default() += 1;
                    }
                }
                None => self.null += 1,
            }
        }
    }

    fn noted(&self, group: &str, label: &str) -> bool {
        let labels = self.notes.get(group);
        labels.is_some_and(|labels| labels.contains_key(label))
    }

    /// What should have been reached and was not.
    pub fn missing(&self) -> Vec<String> {
        let mut missing = Vec::new();
        for (number, status) in expected_pairs() {
            if !self.pairs.contains_key(&(number, status.0)) {
                missing.push(format!(
                    "{} {}",
                    PROCEDURE_NAMES[number as usize],
                    status_name(status.0)
                ));
            }
        }
        for status in expected_of_exclusive() {
            if !self.exclusive.contains_key(&status.0) {
                missing.push(format!("EXCLUSIVE {}", status_name(status.0)));
            }
        }
        for rule in rules::all() {
            if !self.noted(rules::GROUP, &rule) {
                missing.push(format!("rule: {rule}"));
            }
        }
        for rule in rules::place::nfs() {
            if !self.noted(rules::PLACE_GROUP, &rule) {
                missing.push(format!("rule of E6: {rule}"));
            }
        }
        for rule in rules::link::all() {
            if !self.noted(rules::LINK_GROUP, &rule) {
                missing.push(format!("rule of E7: {rule}"));
            }
        }
        for meeting in meetings() {
            if !self.noted(RENAMES, &meeting) {
                missing.push(format!("random RENAME: {meeting}"));
            }
        }
        for kind in link_kinds() {
            if !self.noted(LINKS, &kind) {
                missing.push(format!("random LINK: {kind}"));
            }
        }
        missing.extend(self.places.missing(&PROCEDURE_NAMES, &UNREAD));
        for (number, name) in PROCEDURE_NAMES.iter().enumerate() {
            let unread = UNREAD.contains(&number);
            if !unread && !self.garbage.contains_key(&(number as u32)) {
                missing.push(format!("{name} GARBAGE_ARGS"));
            }
        }
        for (place, name) in OUTCOMES.iter().enumerate() {
            if !self.outcomes.contains_key(&place) {
                missing.push((*name).to_owned());
            }
        }
        if self.null == 0 {
            missing.push("NULL".to_owned());
        }
        for number in [0, 1, 2, 3, 4, 5, 7, 8, 9] {
            if self.calls[number] == 0 {
                missing.push(format!("call answer {number}"));
            }
        }
        for number in [0, 3, 6] {
            if self.formats[number] == 0 {
                missing.push(format!("format answer {number}"));
            }
        }
        for number in [0, 1] {
            if self.checks[number] == 0 {
                missing.push(format!("check answer {number}"));
            }
        }
        for number in [0, 1, 6] {
            if self.conversions[number] == 0 {
                missing.push(format!("convert answer {number}"));
            }
        }
        missing
    }

    /// How many things were noted in a group.
    fn count(&self, group: &str) -> u64 {
        let labels = self.notes.get(group);
        labels.map_or(0, |labels| labels.values().sum())
    }

    /// What the file of searches should have reached and has not.
    pub fn missing_searches(&self) -> Vec<String> {
        let mut missing = Vec::new();
        for &rule in rules::searches() {
            if !self.noted(rules::SEARCH_GROUP, rule) {
                missing.push(format!("rule of E4: {rule}"));
            }
        }
        for kind in searches::kinds() {
            if !self.noted(searches::SEEDED, &kind) {
                missing.push(format!("seeded search: {kind}"));
            }
        }
        for (group, least) in [
            (searches::SEEDED, searches::LEAST_SEEDED),
            (searches::STORES, searches::LEAST_STORES),
        ] {
            let count = self.count(group);
            if count < least {
                missing.push(format!("{group}: {count}, not {least}"));
            }
        }
        missing
    }

    /// What the file of mounts should have reached and has not.
    pub fn missing_mounts(&self) -> Vec<String> {
        let mut missing = self.mounts.missing();
        for rule in rules::mount::all() {
            if !self.noted(rules::MOUNT_GROUP, &rule) {
                missing.push(format!("rule of E5: {rule}"));
            }
        }
        for rule in rules::place::mount() {
            if !self.noted(rules::PLACE_GROUP, &rule) {
                missing.push(format!("rule of E6: {rule}"));
            }
        }
        missing
    }

    /// Statuses that the papers do not give for their procedure.
    pub fn unexpected(&self) -> Vec<String> {
        let expected = expected_pairs();
        let pairs = self
            .pairs
            .keys()
            .filter(|(number, status)| !expected.contains(&(*number, Status(*status))))
            .map(|&(number, status)| format!("{} {status}", PROCEDURE_NAMES[number as usize]));
        let exclusive = self
            .exclusive
            .keys()
            .filter(|&&status| expected_of_exclusive().all(|known| known.0 != status))
            .map(|status| format!("EXCLUSIVE {status}"));
        let known = meetings();
        let renames = self
            .notes
            .get(RENAMES)
            .into_iter()
            .flat_map(|labels| labels.keys())
            .filter(|&label| !known.contains(label))
            .map(|label| format!("random RENAME: {label}"));
        let mounts = self.mounts.unexpected();
        pairs
            .chain(exclusive)
            .chain(renames)
            .chain(mounts)
            .collect()
    }

    /// The tables as text.
    pub fn tables(&self) -> String {
        let mut text = String::new();
        let mut line = |content: String| {
            text.push_str(&content);
            text.push('\n');
        };
        line("## By procedure and status\n".to_owned());
        line("| procedure | status | calls |".to_owned());
        line("|---|---|---:|".to_owned());
        line(format!("| NULL | (none) | {} |", self.null));
        for (&(number, status), count) in &self.pairs {
            let procedure = PROCEDURE_NAMES[number as usize];
            let status = status_name(status);
            line(format!("| {procedure} | {status} | {count} |"));
        }
        line("\n## EXCLUSIVE CREATE by status\n".to_owned());
        line("| status | calls |".to_owned());
        line("|---|---:|".to_owned());
        for (&status, count) in &self.exclusive {
            line(format!("| {} | {count} |", status_name(status)));
        }
        line("\n## GARBAGE_ARGS by procedure\n".to_owned());
        line("| procedure | calls |".to_owned());
        line("|---|---:|".to_owned());
        for (&number, count) in &self.garbage {
            let procedure = PROCEDURE_NAMES[number as usize];
            line(format!("| {procedure} | {count} |"));
        }
        line("\n## By RPC outcome\n".to_owned());
        line("| outcome | calls |".to_owned());
        line("|---|---:|".to_owned());
        for (&place, count) in &self.outcomes {
            line(format!("| {} | {count} |", OUTCOMES[place]));
        }
        line("\n## By answer number of each entry\n".to_owned());
        line("| answer | calls | formats | checks | conversions |".to_owned());
        line("|---:|---:|---:|---:|---:|".to_owned());
        for number in 0..10 {
            line(format!(
                "| {number} | {} | {} | {} | {} |",
                self.calls[number],
                self.formats[number],
                self.checks[number],
                self.conversions[number]
            ));
        }
        text.push_str(
            &self
                .places
                .table("Where calls are broken", &PROCEDURE_NAMES),
        );
        text.push_str(&self.notes());
        text
    }

    /// The tables of labels as text.
    pub fn notes(&self) -> String {
        let mut text = String::new();
        for (group, labels) in &self.notes {
            let _ = write!(text, "\n## {group}\n\n| what | times |\n|---|---:|\n");
            for (label, count) in labels {
                let _ = writeln!(text, "| {label} | {count} |");
            }
        }
        text
    }
}
