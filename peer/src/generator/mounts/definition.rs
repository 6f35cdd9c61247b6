//! What the papers say of a MOUNT call, written down a second time: slowly,
//! with copies, and without the code of the entry. Only the store's check is
//! the peer's.

use super::super::driver::Mount;
use super::super::places;
use super::super::view::View;
use super::tables::{self, Row, Rows};

/// The outcome of a MOUNT call.
pub struct Defined {
    pub number: u32,
    pub offset: u32,
    pub reply: Vec<u8>,
    pub table: Vec<u8>,
}

/// Takes words and opaque fields off the front of a call.
struct Fields<'a>(&'a [u8]);

impl<'a> Fields<'a> {
    fn word(&mut self) -> Option<u32> {
        if self.0.len() < 4 {
            return None;
        }
        let (word, rest) = self.0.split_at(4);
        self.0 = rest;
        Some(
            word.iter()
                .fold(0, |sum, &byte| 256 * sum + u32::from(byte)),
        )
    }

    fn opaque(&mut self, most: u64) -> Option<&'a [u8]> {
        let length = u64::from(self.word()?);
        let padded = length.div_ceil(4) * 4;
        if length > most || padded > self.0.len() as u64 {
            return None;
        }
        let (field, rest) = self.0.split_at(padded as usize);
        self.0 = rest;
        Some(&field[..length as usize])
    }
}

/// The outcome that the papers ask for.
pub fn defined(mount: &Mount<'_>, store: &[u8], table: &[u8]) -> Defined {
    let place = places::of_mount(mount, store, table);
    let refused = |number| Defined {
        number,
        offset: place.offset,
        reply: Vec::new(),
        table: table.to_vec(),
    };
    if mount.space < 33_692 {
        return refused(2);
    }
    if mount.bytes.len() > 8192 {
        return refused(4);
    }
    let Some(view) = View::of(store) else {
        return refused(1);
    };
    let Some(rows) = tables::read(table) else {
        return refused(12);
    };
    match accepted(mount, &view, rows) {
        Some((reply, rows)) => Defined {
            number: 0,
            offset: place.offset,
            reply,
            table: rows.map_or(table.to_vec(), |rows| tables::write(&rows)),
        },
        None => refused(place.number),
    }
}

fn words(words: &[u32]) -> Vec<u8> {
    words.iter().flat_map(|word| word.to_be_bytes()).collect()
}

/// The reply and the rows, if they change; `None` without a complete header, of
/// which `places` says what is the matter.
fn accepted(mount: &Mount<'_>, view: &View, rows: Rows) -> Option<(Vec<u8>, Option<Rows>)> {
    let mut call = Fields(mount.bytes);
    let xid = call.word()?;
    if call.word()? != 0 {
        return None;
    }
    if call.word()? != 2 {
        return Some((words(&[xid, 1, 1, 0, 2, 2]), None));
    }
    let (program, version, procedure) = (call.word()?, call.word()?, call.word()?);
    for _ in 0..2 {
        call.word()?;
        call.opaque(400)?;
    }
    let head = |outcome: u32| words(&[xid, 1, 0, 0, 0, outcome]);
    if program != 100_005 {
        return Some((head(1), None));
    }
    if version != 3 {
        return Some(([head(2), words(&[3, 3])].concat(), None));
    }
    if procedure > 5 {
        return Some((head(3), None));
    }
    Some(match run(procedure, call, mount.host, view, rows) {
        Some((result, rows)) => ([head(0), result].concat(), Some(rows)),
        None => (head(4), None),
    })
}

/// The bytes of a procedure's result, and the rows after it; `None` is
/// GARBAGE_ARGS.
fn run(
    procedure: u32,
    mut call: Fields<'_>,
    host: u32,
    view: &View,
    mut rows: Rows,
) -> Option<(Vec<u8>, Rows)> {
    let path = match procedure {
        1 | 3 => call.opaque(1024)?.to_vec(),
        _ => Vec::new(),
    };
    if !call.0.is_empty() {
        return None;
    }
    let own = Row { host, path };
    let result = match procedure {
        1 => mnt(view, &mut rows, own),
        2 => {
            let listed: Vec<u8> = rows.iter().flatten().flat_map(listed).collect();
            [listed, words(&[0])].concat()
        }
        3 => {
            for row in &mut rows {
                if row.as_ref() == Some(&own) {
                    *row = None;
                }
            }
            Vec::new()
        }
        4 => {
            for row in &mut rows {
                if row.as_ref().is_some_and(|row| row.host == host) {
                    *row = None;
                }
            }
            Vec::new()
        }
        5 => words(&[1, 1, 0x2F00_0000, 0, 0]),
        _ => Vec::new(),
    };
    Some((result, rows))
}

/// A row as DUMP lists it.
fn listed(row: &Row) -> Vec<u8> {
    let [a, b, c, d] = row.host.to_be_bytes();
    let mut bytes = words(&[1]);
    for field in [format!("{a}.{b}.{c}.{d}").into_bytes(), row.path.clone()] {
        bytes.extend(words(&[field.len() as u32]));
        bytes.extend(&field);
        while !bytes.len().is_multiple_of(4) {
            bytes.push(0);
        }
    }
    bytes
}

/// The result of MNT.
fn mnt(view: &View, rows: &mut [Option<Row>], own: Row) -> Vec<u8> {
    let directory = match resolved(view, &own.path) {
        Ok(directory) => directory,
        Err(status) => return words(&[status]),
    };
    if !rows.iter().any(|row| row.as_ref() == Some(&own)) {
        let Some(free) = rows.iter().position(Option::is_none) else {
            return words(&[10_006]);
        };
        rows[free] = Some(own);
    }
    let mut result = words(&[0, 12]);
    result.extend(view.handle(directory).unwrap_or_default());
    result.extend(words(&[2, 0, 1]));
    result
}

/// The object of a path, or the status.
pub fn resolved(view: &View, path: &[u8]) -> Result<usize, u32> {
    if path.first() != Some(&b'/') {
        return Err(22);
    }
    let mut object = 0;
    for name in path.split(|&byte| byte == b'/') {
        if name.is_empty() {
            continue;
        }
        if !view.is_directory(object) {
            return Err(20);
        }
        if name.len() > 32 {
            return Err(63);
        }
        if name.contains(&0) {
            return Err(13);
        }
        if name == b"." {
            continue;
        }
        let found = if name == b".." {
            let above = view.names.iter().find(|named| named.child == object);
            Some(above.map_or(0, |named| named.directory))
        } else {
            let names = &mut view.names.iter();
            names
                .find(|named| named.directory == object && named.name == name)
                .map(|named| named.child)
        };
        object = found.ok_or(2u32)?;
    }
    if view.is_directory(object) {
        Ok(object)
    } else {
        Err(20)
    }
}
