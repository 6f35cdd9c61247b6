//! The mount table: 32 rows of a host and a path, and their check.
//!
//! Every call reads the whole table, so the check reads each byte once. What
//! stands behind a path is tested for zeros in groups of 32 bytes. A path is
//! summed up in the same groups to a number, and only rows with equal numbers
//! are compared.

use crate::layout::{put_word, word};
use crate::name::Text;

/// Rows of a table.
pub const ROWS: usize = 32;
/// The longest path.
pub const MAX_PATH: usize = 1024;
/// Bytes of one row and of the table.
pub const ROW_BYTES: usize = row_field::PATH + MAX_PATH;
pub const TABLE_BYTES: usize = ROWS * ROW_BYTES;

/// Offsets of the fields of a row.
pub mod row_field {
    pub const HOST: usize = 0;
    /// The length of the path; 0 in a free row.
    pub const LENGTH: usize = 4;
    pub const PATH: usize = 8;
}

/// The bytes that are summed up or tested for zeros at a time.
const GROUP: usize = 32;

type Row = [u8; ROW_BYTES];

/// A table that has passed its check.
pub struct Table<'a> {
    rows: &'a mut [Row],
    /// Bit i stands for row i.
    used: u32,
}

/// A used row.
pub struct Mounted<'a> {
    pub host: u32,
    pub length: usize,
    /// The path with zeros after it.
    pub path: &'a [u8; MAX_PATH],
}

impl Mounted<'_> {
    /// The path without what stands behind it.
    pub fn sent(&self) -> &[u8] {
        &self.path[..self.length.min(MAX_PATH)]
    }
}

/// Whether the bytes are a table that passes its check.
pub fn sound(table: &[u8]) -> bool {
    table.len() == TABLE_BYTES && used_rows(table.as_chunks::<ROW_BYTES>().0).is_some()
}

impl<'a> Table<'a> {
    /// The table over these bytes, if it passes its check.
    pub fn new(bytes: &'a mut [u8]) -> Option<Table<'a>> {
        if bytes.len() != TABLE_BYTES {
            return None;
        }
        let rows = bytes.as_chunks_mut::<ROW_BYTES>().0;
        let used = used_rows(rows)?;
        Some(Table { rows, used })
    }

    /// The used rows in ascending order, with their numbers.
    pub fn mounted(&self) -> impl Iterator<Item = (usize, Mounted<'_>)> {
        let mut left = self.used;
        std::iter::from_fn(move || {
            let number = left.trailing_zeros() as usize;
            let row = self.rows.get(number)?;
            left &= left - 1;
            let mounted = Mounted {
                host: word(row, row_field::HOST),
                length: word(row, row_field::LENGTH) as usize,
                path: path_of(row),
            };
            Some((number, mounted))
        })
    }

    /// The row of a pair.
    pub fn find(&self, host: u32, path: &[u8]) -> Option<usize> {
        self.mounted()
            .find(|(_, mounted)| mounted.host == host && mounted.sent() == path)
            .map(|(number, _)| number)
    }

    /// Puts a pair that is not there into the lowest free row. `None` if all
    /// rows are used. The path has 1 to 1,024 bytes.
    pub fn add(&mut self, host: u32, path: &[u8]) -> Option<()> {
        let number = (!self.used).trailing_zeros() as usize;
        let row = self.rows.get_mut(number)?;
        put_word(row, row_field::HOST, host);
        put_word(row, row_field::LENGTH, path.len() as u32);
        row[row_field::PATH..][..path.len()].copy_from_slice(path);
        self.used |= 1 << number;
        Some(())
    }

    /// Makes a used row free and zero. What is behind its path is zero
    /// already.
    fn strike(&mut self, number: usize) {
        let row = &mut self.rows[number];
        let length = word(row, row_field::LENGTH) as usize;
        row[..row_field::PATH + length].fill(0);
        self.used &= !(1 << number);
    }

    /// Strikes a pair, if it is there.
    pub fn remove(&mut self, host: u32, path: &[u8]) {
        if let Some(number) = self.find(host, path) {
            self.strike(number);
        }
    }

    /// Strikes all rows of a host.
    pub fn remove_all(&mut self, host: u32) {
        let mut left = self.used;
        while left != 0 {
            let number = left.trailing_zeros() as usize;
            if word(&self.rows[number], row_field::HOST) == host {
                self.strike(number);
            }
            left &= left - 1;
        }
    }
}

/// The path bytes of a row.
#[inline(always)]
fn path_of(row: &Row) -> &[u8; MAX_PATH] {
    match row.last_chunk::<MAX_PATH>() {
        Some(path) => path,
        None => unreachable!("a row is longer than its path"),
    }
}

/// Which of the 32 rows are used, bit i standing for row i, if they pass the
/// check.
fn used_rows(rows: &[Row]) -> Option<u32> {
    let mut used = 0u32;
    // The number of each used row before this one, otherwise 0.
    let mut sums = [0u32; ROWS];
    for (number, row) in rows.iter().enumerate().take(ROWS) {
        let host = word(row, row_field::HOST);
        let length = word(row, row_field::LENGTH);
        let path = path_of(row);
        let groups = path.as_chunks::<GROUP>().0;
        if length == 0 {
            if host != 0 || !all_zero(groups) {
                return None;
            }
            continue;
        }
        if length as usize > MAX_PATH || path[0] != b'/' {
            return None;
        }
        let count = (length as usize).div_ceil(GROUP);
        let (inside, behind) = groups.split_at(count);
        let in_last = length as usize - GROUP * (count - 1);
        if !Text::of(&groups[count - 1]).ends_at(in_last) || !all_zero(behind) {
            return None;
        }
        let sum = summed_up(host, length, inside);
        let alike = sums
            .iter()
            .fold(false, |seen, &other| seen | (other == sum));
        if alike && rows[..number].contains(row) {
            return None;
        }
        sums[number] = sum;
        used |= 1 << number;
    }
    Some(used)
}

/// Whether all bytes are 0.
#[inline(always)]
fn all_zero(groups: &[[u8; GROUP]]) -> bool {
    let mut seen = [0u64; 4];
    for group in groups {
        for (seen, word) in seen.iter_mut().zip(Text::of(group).0) {
            *seen |= word;
        }
    }
    Text(seen).is_zero()
}

/// A number that depends on every byte of a used row and on its place: sums of
/// the path's words, and sums of these sums, as the words follow.
#[inline(always)]
fn summed_up(host: u32, length: u32, path: &[[u8; GROUP]]) -> u32 {
    let mut first = [0u64; 4];
    let mut second = [0u64; 4];
    for group in path {
        let words = Text::of(group).0;
        for lane in 0..4 {
            first[lane] = first[lane].wrapping_add(words[lane]);
            second[lane] = second[lane].wrapping_add(first[lane]);
        }
    }
    // The high bits are mixed best. A difference in the last bytes of a word
    // shows only in the highest ones, so those of both stand in two places.
    let (first, second) = (Text(first).hash(host), Text(second).hash(length));
    (first >> 32) as u32 ^ ((second >> 32) as u32).rotate_left(16)
}
