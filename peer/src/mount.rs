//! The procedures of MOUNT version 3 (RFC 1813, appendix I).
//!
//! As in `procedures`, all arguments are read first, and `None` means that
//! they are not exactly of their type, at the reader's place. The store is only
//! read.

use crate::check::Survey;
use crate::component::{step, want_directory};
use crate::layout::{object_field, word, Object, ROOT, STAMP_AT};
use crate::mount_table::{Mounted, Table, MAX_PATH};
use crate::numbers::{mount_procedure, Status};
use crate::reply::{Reply, MOUNT_REPLY_SPACE};
use crate::rpc::Garbage;
use crate::xdr::Reader;

/// The authentication flavors that MNT lists: AUTH_NONE and AUTH_SYS.
const FLAVORS: [u32; 2] = [0, 1];

type MountReply<'a> = Reply<'a, MOUNT_REPLY_SPACE>;

/// Runs one procedure; `number` is at most 5. Writes the result after the head
/// of an accepted reply.
pub fn run<'a>(
    number: u32,
    arguments: &'a [u8],
    store: &[u8],
    survey: &Survey,
    table: &mut Table<'_>,
    host: u32,
    reply: &mut MountReply<'_>,
) -> Result<(), Garbage<'a>> {
    let mut reader = Reader::new(arguments);
    let done = run_with(number, &mut reader, store, survey, table, host, reply);
    done.ok_or(Garbage(reader.rest()))
}

#[inline]
fn run_with(
    number: u32,
    reader: &mut Reader<'_>,
    store: &[u8],
    survey: &Survey,
    table: &mut Table<'_>,
    host: u32,
    reply: &mut MountReply<'_>,
) -> Option<()> {
    match number {
        mount_procedure::MNT => {
            let path = read_path(reader)?;
            match mnt(store, survey, table, host, path) {
                Ok(directory) => write_mounted(store, survey, directory, reply),
                Err(status) => reply.word(status.0),
            }
        }
        mount_procedure::UMNT => {
            let path = read_path(reader)?;
            table.remove(host, path);
        }
        _ => {
            reader.ended(())?;
            match number {
                mount_procedure::DUMP => write_table(table, reply),
                mount_procedure::UMNTALL => table.remove_all(host),
                mount_procedure::EXPORT => write_exports(reply),
                _ => {}
            }
        }
    }
    Some(())
}

/// Reads a path, which is all that there is.
fn read_path<'a>(reader: &mut Reader<'a>) -> Option<&'a [u8]> {
    let path = reader.opaque(MAX_PATH)?;
    reader.ended(path)
}

/// The directory of a path, which is in the table afterwards.
fn mnt(
    store: &[u8],
    survey: &Survey,
    table: &mut Table<'_>,
    host: u32,
    path: &[u8],
) -> Result<Object, Status> {
    let directory = resolve(store, survey, path)?;
    if table.find(host, path).is_none() {
        table.add(host, path).ok_or(Status::SERVERFAULT)?;
    }
    Ok(directory)
}

/// The directory to which a path leads from the root. Empty components are
/// passed over.
fn resolve(store: &[u8], survey: &Survey, path: &[u8]) -> Result<Object, Status> {
    let components = path.strip_prefix(b"/").ok_or(Status::INVAL)?;
    let object = components
        .split(|&byte| byte == b'/')
        .filter(|name| !name.is_empty())
        .try_fold(ROOT, |object, name| step(store, survey, object, name))?;
    want_directory(survey, object)?;
    Ok(object)
}

/// Writes the result of a MNT that succeeds.
fn write_mounted(store: &[u8], survey: &Survey, directory: Object, reply: &mut MountReply<'_>) {
    let generation = survey.shape.object_at(directory) + object_field::GENERATION;
    reply.word(Status::OK.0);
    reply.handle(word(store, STAMP_AT), directory, word(store, generation));
    reply.word(FLAVORS.len() as u32);
    for flavor in FLAVORS {
        reply.word(flavor);
    }
}

/// Writes the result of DUMP: the rows as a list.
fn write_table(table: &Table<'_>, reply: &mut MountReply<'_>) {
    for (_, mounted) in table.mounted() {
        reply.word(1);
        write_row(&mounted, reply);
    }
    reply.word(0);
}

fn write_row(mounted: &Mounted<'_>, reply: &mut MountReply<'_>) {
    let (text, length) = dotted(mounted.host);
    reply.padded(&text, length);
    reply.padded(mounted.path, mounted.length);
}

/// A host as dotted decimal with zeros after it, and the length.
fn dotted(host: u32) -> ([u8; 16], usize) {
    let mut text = [0; 16];
    let mut length = 0;
    let mut put = |byte: u8| {
        text[length % 16] = byte;
        length += 1;
    };
    for (at, number) in host.to_be_bytes().into_iter().enumerate() {
        if at > 0 {
            put(b'.');
        }
        if number >= 100 {
            put(b'0' + number / 100);
        }
        if number >= 10 {
            put(b'0' + number / 10 % 10);
        }
        put(b'0' + number % 10);
    }
    (text, length)
}

/// Writes the result of EXPORT: the root without groups, and no other.
fn write_exports(reply: &mut MountReply<'_>) {
    reply.word(1);
    reply.padded(b"/\0\0\0", 1);
    // No group, no further export.
    reply.zero_words(2);
}
