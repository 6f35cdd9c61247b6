//! Mount tables: their rows, plainly read and written, and ways to damage
//! them.

use super::super::random::Random;
use crate::layout::put_word;
use crate::mount_table::{row_field, MAX_PATH, ROWS, ROW_BYTES, TABLE_BYTES};

/// A used row.
#[derive(Clone, PartialEq, Eq, Debug)]
pub struct Row {
    pub host: u32,
    pub path: Vec<u8>,
}

impl Row {
    pub fn new(host: u32, path: &[u8]) -> Row {
        Row {
            host,
            path: path.to_vec(),
        }
    }
}

/// The rows of a table; free ones are `None`.
pub type Rows = Vec<Option<Row>>;

/// Offset of a row.
pub fn row_at(number: usize) -> usize {
    ROW_BYTES * number
}

/// The states of a table that passes its check.
pub const EMPTY: &str = "good, empty";
pub const MIXED: &str = "good, some rows used";
pub const FULL: &str = "good, full";

/// The rows of a table, or the first demand of the check that is broken.
fn judged(table: &[u8]) -> Result<Rows, &'static str> {
    if table.len() != TABLE_BYTES {
        return Err(Damage::Length.label());
    }
    let mut rows = Rows::new();
    for bytes in table.chunks(ROW_BYTES) {
        let word = |at: usize| {
            let field = bytes[at..at + 4].iter();
            field.fold(0, |number, &byte| 256 * number + u32::from(byte))
        };
        let (host, length) = (word(row_field::HOST), word(row_field::LENGTH) as usize);
        let path = &bytes[row_field::PATH..];
        if length == 0 {
            if host != 0 {
                return Err(Damage::FreeHost.label());
            }
            if path.iter().any(|&byte| byte != 0) {
                return Err(Damage::FreePath.label());
            }
            rows.push(None);
            continue;
        }
        if length > MAX_PATH {
            return Err(Damage::TooLong.label());
        }
        if path[0] != b'/' {
            return Err(Damage::NoSlash.label());
        }
        if path[length..].iter().any(|&byte| byte != 0) {
            return Err(Damage::Behind.label());
        }
        let row = Some(Row::new(host, &path[..length]));
        if rows.contains(&row) {
            return Err(Damage::Twice.label());
        }
        rows.push(row);
    }
    Ok(rows)
}

/// The rows of a table that passes its check.
pub fn read(table: &[u8]) -> Option<Rows> {
    judged(table).ok()
}

/// The table of these rows; further ones are free.
pub fn write(rows: &[Option<Row>]) -> Vec<u8> {
    let mut table = vec![0; TABLE_BYTES];
    for (number, row) in rows.iter().enumerate() {
        if let Some(row) = row {
            put(&mut table, number, row);
        }
    }
    table
}

/// Puts a row into a table, whatever the table holds.
pub fn put(table: &mut [u8], number: usize, row: &Row) {
    let bytes = &mut table[row_at(number)..][..ROW_BYTES];
    bytes.fill(0);
    put_word(bytes, row_field::HOST, row.host);
    put_word(bytes, row_field::LENGTH, row.path.len() as u32);
    bytes[row_field::PATH..][..row.path.len()].copy_from_slice(&row.path);
}

/// The state of a table, for counting.
pub fn state_of(table: &[u8]) -> &'static str {
    if crate::mount_table::sound(table) {
        let lengths = (0..ROWS).map(|number| row_at(number) + row_field::LENGTH);
        return match lengths.filter(|&at| table[at..at + 4] != [0; 4]).count() {
            0 => EMPTY,
            ROWS => FULL,
            _ => MIXED,
        };
    }
    judged(table).err().unwrap_or("judged in two ways")
}

/// The ways in which a table may be damaged, by the demand that is broken.
#[derive(Clone, Copy, PartialEq, Eq, Debug)]
pub enum Damage {
    Length,
    FreeHost,
    FreePath,
    TooLong,
    NoSlash,
    Behind,
    Twice,
}

pub const DAMAGES: [Damage; 7] = [
    Damage::Length,
    Damage::FreeHost,
    Damage::FreePath,
    Damage::TooLong,
    Damage::NoSlash,
    Damage::Behind,
    Damage::Twice,
];

impl Damage {
    pub fn label(self) -> &'static str {
        match self {
            Damage::Length => "another length",
            Damage::FreeHost => "a free row with a host",
            Damage::FreePath => "a free row with a byte in its path",
            Damage::TooLong => "a path length over 1,024",
            Damage::NoSlash => "a path that does not start with a slash",
            Damage::Behind => "a byte behind a path",
            Damage::Twice => "a pair twice",
        }
    }

    /// Damages a sound table in this way, if its rows allow it.
    pub fn apply(self, table: &mut Vec<u8>, random: &mut Random) {
        let Some(rows) = read(table) else {
            return;
        };
        let numbers = |used: bool| -> Vec<usize> {
            (0..ROWS)
                .filter(|&number| rows[number].is_some() == used)
                .collect()
        };
        let (used, free) = (numbers(true), numbers(false));
        if self == Damage::Length {
            let lengths = [0, 1, 4, ROW_BYTES, TABLE_BYTES - 1, TABLE_BYTES + 1, 33_056];
            table.resize(random.pick(&lengths), 0);
            return;
        }
        let of_free = matches!(self, Damage::FreeHost | Damage::FreePath);
        let fitting = if of_free { &free } else { &used };
        if fitting.is_empty() {
            return;
        }
        let number = random.pick(fitting);
        let at = row_at(number);
        let path_at = at + row_field::PATH;
        let bit = 1u8 << random.below(8);
        match self {
            Damage::Length => {}
            Damage::FreeHost => table[at + random.below(4)] = bit,
            Damage::FreePath => {
                let place = random.pick(&[0, 1, random.clone().below(MAX_PATH), MAX_PATH - 1]);
                table[path_at + place] = random.pick(&[bit, b'/']);
            }
            Damage::TooLong => {
                let length = random.pick(&[1025, 1028, 0x0001_0000, 0x8000_0001, u32::MAX]);
                put_word(table, at + row_field::LENGTH, length);
            }
            Damage::NoSlash => table[path_at] = random.pick(&[0, b'.', b'a', 0x2E, 0xAF]),
            Damage::Behind => {
                let length = rows[number].as_ref().map_or(0, |row| row.path.len());
                if length < MAX_PATH {
                    let place = random.pick(&[
                        length,
                        random.clone().between(length, MAX_PATH - 1),
                        MAX_PATH - 1,
                    ]);
                    table[path_at + place] = bit;
                }
            }
            Damage::Twice => {
                let others: Vec<usize> = (0..ROWS).filter(|&other| other != number).collect();
                let other = random.pick(&others);
                if let Some(row) = &rows[number] {
                    put(table, other, row);
                }
            }
        }
    }
}
