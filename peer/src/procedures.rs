//! The procedures of NFS version 3.
//!
//! Each procedure reads all its arguments before it looks at the store, makes
//! its tests in the order of the papers, changes the store only when every
//! test has passed, and writes its result. `None` means that the arguments
//! are not exactly of their type; then nothing has been written, and the
//! reader stands at the fault.

use crate::arguments::{handle, How, Place, RawHandle, Wanted};
use crate::component::{step, want_directory, want_name};
use crate::layout::*;
use crate::name::Text;
use crate::numbers::{procedure, Status, ZERO_WORDS};
use crate::reply::Reply;
use crate::rpc::Garbage;
use crate::volume::{Before, NoSpace, Volume};
use crate::xdr::Reader;

/// The most bytes of one READ, WRITE or READDIR.
const TRANSFER: u32 = 4096;
/// Bytes of a READDIR body without entries.
const LISTING_BYTES: usize = 104;
/// Bytes of a READDIR entry without its padded name.
const ENTRY_BYTES: usize = 24;
/// WRITE answers that the data is on stable storage with its attributes.
const FILE_SYNC: u32 = 2;

impl From<NoSpace> for Status {
    fn from(_: NoSpace) -> Status {
        Status::NOSPC
    }
}

/// Runs one procedure; `number` is at most 21. Writes the result after the
/// head of an accepted reply.
pub fn run<'a>(
    number: u32,
    arguments: &'a [u8],
    volume: &mut Volume<'_>,
    verifier: u64,
    reply: &mut Reply<'_>,
) -> Result<(), Garbage<'a>> {
    let mut reader = Reader::new(arguments);
    let done = run_with(number, &mut reader, volume, verifier, reply);
    done.ok_or(Garbage(reader.rest()))
}

#[inline]
fn run_with(
    number: u32,
    reader: &mut Reader<'_>,
    volume: &mut Volume<'_>,
    verifier: u64,
    reply: &mut Reply<'_>,
) -> Option<()> {
    match number {
        procedure::NULL => reader.ended(()),
        procedure::GETATTR => getattr(reader, volume, reply),
        procedure::SETATTR => setattr(reader, volume, reply),
        procedure::LOOKUP => lookup(reader, volume, reply),
        procedure::ACCESS => access(reader, volume, reply),
        procedure::READ => read(reader, volume, reply),
        procedure::WRITE => write(reader, volume, verifier, reply),
        procedure::CREATE => create(reader, volume, reply),
        procedure::MKDIR => mkdir(reader, volume, reply),
        procedure::REMOVE => remove(reader, volume, reply),
        procedure::RMDIR => rmdir(reader, volume, reply),
        procedure::RENAME => rename(reader, volume, reply),
        procedure::LINK => link(reader, volume, reply),
        procedure::READDIR => readdir(reader, volume, reply),
        procedure::FSSTAT => fsstat(reader, volume, reply),
        procedure::FSINFO => fsinfo(reader, volume, reply),
        procedure::PATHCONF => pathconf(reader, volume, reply),
        procedure::COMMIT => commit(reader, volume, verifier, reply),
        _ => {
            write_status(reply, Status::NOTSUPP);
            reply.zero_words(ZERO_WORDS[number as usize % ZERO_WORDS.len()]);
            Some(())
        }
    }
}

fn write_status(reply: &mut Reply<'_>, status: Status) {
    reply.word(status.0);
}

/// The live object of a handle.
fn resolve(volume: &Volume<'_>, raw: RawHandle<'_>) -> Result<Object, Status> {
    let Ok(raw) = <&[u8; 12]>::try_from(raw) else {
        return Err(Status::BADHANDLE);
    };
    let number = word(raw, 4) as usize;
    if number >= volume.survey.shape.objects {
        return Err(Status::BADHANDLE);
    }
    let object = Object(number);
    let live = word(raw, 0) == volume.stamp()
        && volume.survey.is_live(object)
        && word(raw, 8) == volume.generation(object);
    if live {
        Ok(object)
    } else {
        Err(Status::STALE)
    }
}

/// INVAL unless the object is a regular file.
fn want_file(volume: &Volume<'_>, object: Object) -> Result<(), Status> {
    if volume.survey.is_directory(object) {
        Err(Status::INVAL)
    } else {
        Ok(())
    }
}

/// `status` if the name is "." or "..".
fn refuse_dots(text: &Text, status: Status) -> Result<(), Status> {
    if text.is_dot() || text.is_dot_dot() {
        Err(status)
    } else {
        Ok(())
    }
}

fn getattr(reader: &mut Reader<'_>, volume: &Volume<'_>, reply: &mut Reply<'_>) -> Option<()> {
    let raw = handle(reader)?;
    reader.ended(())?;
    match resolve(volume, raw) {
        Ok(object) => {
            write_status(reply, Status::OK);
            reply.attributes(volume, object);
        }
        Err(status) => write_status(reply, status),
    }
    Some(())
}

fn setattr(reader: &mut Reader<'_>, volume: &mut Volume<'_>, reply: &mut Reply<'_>) -> Option<()> {
    let raw = handle(reader)?;
    let wanted = Wanted::read(reader)?;
    let guard = reader.optional(Reader::time)?;
    reader.ended(())?;
    let resolved = resolve(volume, raw);
    let before = resolved.ok().map(|object| volume.before(object));
    let outcome = resolved.and_then(|object| {
        if guard.is_some_and(|time| !volume.changed_at(object, &time)) {
            return Err(Status::NOT_SYNC);
        }
        if !wanted.valid() || wanted.size.is_some() && volume.survey.is_directory(object) {
            return Err(Status::INVAL);
        }
        if let Some(size) = wanted.valid_size() {
            volume.resize(object, size)?;
            volume.touch(object);
        }
        set_given(volume, object, &wanted);
        let clock = volume.clock();
        volume.set_time(object, object_field::CTIME, clock);
        volume.forget(object);
        Ok(())
    });
    write_change(volume, before, outcome, reply);
    Some(())
}

/// Sets the mode, owner, group and times that are given.
fn set_given(volume: &mut Volume<'_>, object: Object, wanted: &Wanted) {
    for (field, value) in [
        (object_field::MODE, wanted.mode),
        (object_field::UID, wanted.uid),
        (object_field::GID, wanted.gid),
    ] {
        if let Some(value) = value {
            volume.set_field(object, field, value);
        }
    }
    let clock = volume.clock();
    for (field, time) in [
        (object_field::ATIME, wanted.atime),
        (object_field::MTIME, wanted.mtime),
    ] {
        if let Some(time) = time.given(clock) {
            volume.set_time(object, field, time);
        }
    }
}

/// Writes the status and the attributes before and after: the whole result of
/// SETATTR, REMOVE and RMDIR, and the failure body of others.
fn write_change(
    volume: &Volume<'_>,
    before: Option<Before>,
    outcome: Result<(), Status>,
    reply: &mut Reply<'_>,
) {
    write_status(reply, outcome.err().unwrap_or(Status::OK));
    reply.change(volume, before);
}

/// Writes a failure status and the attributes of the object if it is live.
fn write_failure(
    volume: &Volume<'_>,
    object: Option<Object>,
    status: Status,
    reply: &mut Reply<'_>,
) {
    write_status(reply, status);
    reply.optional_attributes(volume, object);
}

fn lookup(reader: &mut Reader<'_>, volume: &Volume<'_>, reply: &mut Reply<'_>) -> Option<()> {
    let place = Place::read(reader)?;
    reader.ended(())?;
    let resolved = resolve(volume, place.directory);
    let outcome = resolved.and_then(|directory| {
        let child = step(volume.bytes(), volume.survey, directory, place.name)?;
        Ok((directory, child))
    });
    match outcome {
        Ok((directory, child)) => {
            write_status(reply, Status::OK);
            reply.handle(volume.stamp(), child, volume.generation(child));
            reply.optional_attributes(volume, Some(child));
            reply.optional_attributes(volume, Some(directory));
        }
        Err(status) => write_failure(volume, resolved.ok(), status, reply),
    }
    Some(())
}

fn access(reader: &mut Reader<'_>, volume: &Volume<'_>, reply: &mut Reply<'_>) -> Option<()> {
    let raw = handle(reader)?;
    let asked = reader.word()?;
    reader.ended(())?;
    match resolve(volume, raw) {
        Ok(object) => {
            let granted = if volume.survey.is_directory(object) {
                0x1F
            } else {
                0x2D
            };
            write_status(reply, Status::OK);
            reply.optional_attributes(volume, Some(object));
            reply.word(asked & granted);
        }
        Err(status) => write_failure(volume, None, status, reply),
    }
    Some(())
}

fn read(reader: &mut Reader<'_>, volume: &Volume<'_>, reply: &mut Reply<'_>) -> Option<()> {
    let raw = handle(reader)?;
    let offset = reader.hyper()?;
    let count = reader.word()?;
    reader.ended(())?;
    let resolved = resolve(volume, raw);
    let outcome = resolved.and_then(|file| want_file(volume, file).map(|()| file));
    match outcome {
        Ok(file) => {
            let size = u64::from(volume.size(file));
            let left = size.saturating_sub(offset);
            let sent = left.min(u64::from(count.min(TRANSFER)));
            write_status(reply, Status::OK);
            reply.optional_attributes(volume, Some(file));
            reply.word(sent as u32);
            // Nothing remains exactly when everything left is sent.
            reply.boolean(sent == left);
            reply.word(sent as u32);
            let sent = sent as usize;
            if sent > 0 {
                volume.read(file, offset as usize, reply.room(sent));
            }
            reply.padding(sent);
        }
        Err(status) => write_failure(volume, resolved.ok(), status, reply),
    }
    Some(())
}

fn write(
    reader: &mut Reader<'_>,
    volume: &mut Volume<'_>,
    verifier: u64,
    reply: &mut Reply<'_>,
) -> Option<()> {
    let raw = handle(reader)?;
    let offset = reader.hyper()?;
    let count = reader.word()?;
    let _stable = reader.choice(2)?;
    let data = reader.unlimited()?;
    reader.ended(())?;
    let resolved = resolve(volume, raw);
    let before = resolved.ok().map(|file| volume.before(file));
    let outcome = resolved.and_then(|file| {
        want_file(volume, file)?;
        if data.len() as u64 != u64::from(count) {
            return Err(Status::INVAL);
        }
        let taken = &data[..data.len().min(TRANSFER as usize)];
        if taken.is_empty() {
            return Ok(0);
        }
        let end = offset
            .checked_add(taken.len() as u64)
            .filter(|&end| end <= u64::from(MAX_FILE_BYTES))
            .ok_or(Status::FBIG)? as u32;
        let size = volume.size(file);
        if end > size {
            volume.resize(file, end)?;
        }
        volume.write(file, offset as usize, taken);
        volume.touch(file);
        Ok(taken.len() as u32)
    });
    match outcome {
        Ok(written) => {
            write_change(volume, before, Ok(()), reply);
            reply.word(written);
            reply.word(FILE_SYNC);
            reply.hyper(verifier);
        }
        Err(status) => write_change(volume, before, Err(status), reply),
    }
    Some(())
}

fn create(reader: &mut Reader<'_>, volume: &mut Volume<'_>, reply: &mut Reply<'_>) -> Option<()> {
    let place = Place::read(reader)?;
    let how = How::read(reader)?;
    reader.ended(())?;
    let resolved = resolve(volume, place.directory);
    let before = resolved.ok().map(|directory| volume.before(directory));
    let outcome = resolved.and_then(|directory| {
        want_directory(volume.survey, directory)?;
        let text = want_name(place.name)?;
        refuse_dots(&text, Status::EXIST)?;
        let existing = volume.find(directory, place.name);
        let existing = existing.map(|found| found.object);
        match &how {
            How::Unchecked(wanted) | How::Guarded(wanted) => {
                if !wanted.valid() {
                    return Err(Status::INVAL);
                }
                match existing {
                    Some(file) if matches!(how, How::Unchecked(_)) => {
                        make_again(volume, file, wanted)
                    }
                    Some(_) => Err(Status::EXIST),
                    None => make_file(volume, directory, place.name, wanted),
                }
            }
            How::Exclusive(verifier) => match existing {
                Some(file) if volume.keeps(file, verifier) => Ok(file),
                Some(_) => Err(Status::EXIST),
                None => {
                    let file = volume.add(directory, place.name, REGULAR, 0)?;
                    volume.keep(file, verifier);
                    Ok(file)
                }
            },
        }
    });
    write_made(volume, before, outcome, reply);
    Some(())
}

/// Makes a file with the attributes that are given.
fn make_file(
    volume: &mut Volume<'_>,
    directory: Object,
    name: &[u8],
    wanted: &Wanted,
) -> Result<Object, Status> {
    let size = wanted.valid_size().unwrap_or(0);
    let file = volume.add(directory, name, REGULAR, size)?;
    set_given(volume, file, wanted);
    Ok(file)
}

/// UNCHECKED on an existing object: a regular file obeys the size only.
fn make_again(
    volume: &mut Volume<'_>,
    existing: Object,
    wanted: &Wanted,
) -> Result<Object, Status> {
    if volume.survey.is_directory(existing) {
        return Err(Status::EXIST);
    }
    if let Some(size) = wanted.valid_size() {
        volume.resize(existing, size)?;
        volume.touch(existing);
    }
    Ok(existing)
}

fn mkdir(reader: &mut Reader<'_>, volume: &mut Volume<'_>, reply: &mut Reply<'_>) -> Option<()> {
    let place = Place::read(reader)?;
    let wanted = Wanted::read(reader)?;
    reader.ended(())?;
    let resolved = resolve(volume, place.directory);
    let before = resolved.ok().map(|directory| volume.before(directory));
    let outcome = resolved.and_then(|directory| {
        want_directory(volume.survey, directory)?;
        let text = want_name(place.name)?;
        refuse_dots(&text, Status::EXIST)?;
        if !wanted.valid() || wanted.size.is_some() {
            return Err(Status::INVAL);
        }
        if volume.find(directory, place.name).is_some() {
            return Err(Status::EXIST);
        }
        let made = volume.add(directory, place.name, DIRECTORY, 0)?;
        set_given(volume, made, &wanted);
        Ok(made)
    });
    write_made(volume, before, outcome, reply);
    Some(())
}

/// Writes the result of CREATE and MKDIR.
fn write_made(
    volume: &Volume<'_>,
    before: Option<Before>,
    outcome: Result<Object, Status>,
    reply: &mut Reply<'_>,
) {
    match outcome {
        Ok(object) => {
            write_status(reply, Status::OK);
            reply.word(1);
            reply.handle(volume.stamp(), object, volume.generation(object));
            reply.optional_attributes(volume, Some(object));
            reply.change(volume, before);
        }
        Err(status) => write_change(volume, before, Err(status), reply),
    }
}

fn remove(reader: &mut Reader<'_>, volume: &mut Volume<'_>, reply: &mut Reply<'_>) -> Option<()> {
    let place = Place::read(reader)?;
    reader.ended(())?;
    let resolved = resolve(volume, place.directory);
    let before = resolved.ok().map(|directory| volume.before(directory));
    let outcome = resolved.and_then(|directory| {
        want_directory(volume.survey, directory)?;
        let text = want_name(place.name)?;
        refuse_dots(&text, Status::ACCES)?;
        let found = volume.find(directory, place.name).ok_or(Status::NOENT)?;
        if volume.survey.is_directory(found.object) {
            return Err(Status::ACCES);
        }
        volume.remove(directory, found);
        Ok(())
    });
    write_change(volume, before, outcome, reply);
    Some(())
}

fn rmdir(reader: &mut Reader<'_>, volume: &mut Volume<'_>, reply: &mut Reply<'_>) -> Option<()> {
    let place = Place::read(reader)?;
    reader.ended(())?;
    let resolved = resolve(volume, place.directory);
    let before = resolved.ok().map(|directory| volume.before(directory));
    let outcome = resolved.and_then(|directory| {
        want_directory(volume.survey, directory)?;
        let text = want_name(place.name)?;
        refuse_dots(&text, Status::INVAL)?;
        let found = volume.find(directory, place.name).ok_or(Status::NOENT)?;
        want_directory(volume.survey, found.object)?;
        if volume.survey.is_occupied(found.object) {
            return Err(Status::NOTEMPTY);
        }
        volume.remove(directory, found);
        Ok(())
    });
    write_change(volume, before, outcome, reply);
    Some(())
}

fn rename(reader: &mut Reader<'_>, volume: &mut Volume<'_>, reply: &mut Reply<'_>) -> Option<()> {
    let from = Place::read(reader)?;
    let to = Place::read(reader)?;
    reader.ended(())?;
    let resolved_from = resolve(volume, from.directory);
    let resolved_to = resolve(volume, to.directory);
    let before_from = resolved_from.ok().map(|directory| volume.before(directory));
    let before_to = resolved_to.ok().map(|directory| volume.before(directory));
    let status = match try_rename(volume, resolved_from, resolved_to, from.name, to.name) {
        Ok(()) => Status::OK,
        Err(status) => status,
    };
    write_status(reply, status);
    reply.change(volume, before_from);
    reply.change(volume, before_to);
    Some(())
}

fn try_rename(
    volume: &mut Volume<'_>,
    from: Result<Object, Status>,
    to: Result<Object, Status>,
    old_name: &[u8],
    new_name: &[u8],
) -> Result<(), Status> {
    let from = from?;
    want_directory(volume.survey, from)?;
    let to = to?;
    want_directory(volume.survey, to)?;
    let old_text = want_name(old_name)?;
    let new_text = want_name(new_name)?;
    refuse_dots(&old_text, Status::INVAL)?;
    refuse_dots(&new_text, Status::INVAL)?;
    let moved = volume.find(from, old_name).ok_or(Status::NOENT)?;
    // The second directory and all that hold it, up to the root. The moved
    // object is never the root. A file is none of these.
    let mut above = to;
    while above != ROOT {
        if above == moved.object {
            return Err(Status::INVAL);
        }
        above = volume.survey.parent(above);
    }
    if let Some(target) = volume.find(to, new_name) {
        if target.object == moved.object {
            return Ok(());
        }
        if !replaceable(volume, moved.object, target.object) {
            return Err(Status::EXIST);
        }
        volume.remove(to, target);
    }
    volume.rename(moved, from, to, new_name);
    Ok(())
}

/// Whether RENAME may put an object in the place of another one: both are
/// files, or both are directories and the target is empty.
fn replaceable(volume: &Volume<'_>, object: Object, target: Object) -> bool {
    let survey = &volume.survey;
    survey.is_directory(object) == survey.is_directory(target) && !survey.is_occupied(target)
}

fn link(reader: &mut Reader<'_>, volume: &mut Volume<'_>, reply: &mut Reply<'_>) -> Option<()> {
    let raw = handle(reader)?;
    let place = Place::read(reader)?;
    reader.ended(())?;
    let resolved_file = resolve(volume, raw);
    let resolved = resolve(volume, place.directory);
    let before = resolved.ok().map(|directory| volume.before(directory));
    let status = match try_link(volume, resolved_file, resolved, place.name) {
        Ok(()) => Status::OK,
        Err(status) => status,
    };
    write_status(reply, status);
    reply.optional_attributes(volume, resolved_file.ok());
    reply.change(volume, before);
    Some(())
}

fn try_link(
    volume: &mut Volume<'_>,
    file: Result<Object, Status>,
    directory: Result<Object, Status>,
    name: &[u8],
) -> Result<(), Status> {
    let file = file?;
    want_file(volume, file)?;
    let directory = directory?;
    want_directory(volume.survey, directory)?;
    let text = want_name(name)?;
    refuse_dots(&text, Status::EXIST)?;
    if volume.find(directory, name).is_some() {
        return Err(Status::EXIST);
    }
    if volume.survey.links[file.0] >= MAX_LINKS {
        return Err(Status::MLINK);
    }
    volume.link(file, directory, name)?;
    Ok(())
}

fn readdir(reader: &mut Reader<'_>, volume: &Volume<'_>, reply: &mut Reply<'_>) -> Option<()> {
    let raw = handle(reader)?;
    let cookie = reader.hyper()?;
    let verifier = reader.hyper()?;
    let count = reader.word()?;
    reader.ended(())?;
    let resolved = resolve(volume, raw);
    let outcome = resolved.and_then(|directory| {
        want_directory(volume.survey, directory)?;
        if verifier != 0 {
            return Err(Status::BAD_COOKIE);
        }
        let room = (count.min(TRANSFER) as usize)
            .checked_sub(LISTING_BYTES)
            .ok_or(Status::TOOSMALL)?;
        write_listing(volume, directory, cookie, room, reply)
    });
    if let Err(status) = outcome {
        write_failure(volume, resolved.ok(), status, reply);
    }
    Some(())
}

/// One entry of a listing.
struct Entry<'a> {
    child: Object,
    length: usize,
    /// The name with zeros after it.
    text: &'a [u8; MAX_NAME],
    cookie: u64,
}

impl Entry<'_> {
    /// What the entry costs.
    fn bytes(&self) -> usize {
        ENTRY_BYTES + self.length.next_multiple_of(4)
    }
}

/// Both dots as they would stand in a name record.
const DOTS: [[u8; MAX_NAME]; 2] = {
    let mut texts = [[0; MAX_NAME]; 2];
    texts[0][0] = b'.';
    texts[1][0] = b'.';
    texts[1][1] = b'.';
    texts
};

/// The entries of a directory with cookies above the given one, ascending.
fn entries<'a>(
    volume: &'a Volume<'_>,
    directory: Object,
    cookie: u64,
) -> impl Iterator<Item = Entry<'a>> {
    let parent = volume.survey.parent(directory);
    let dots =
        [(directory, 1), (parent, 2)]
            .into_iter()
            .zip(&DOTS)
            .map(|((child, length), text)| Entry {
                child,
                length,
                text,
                cookie: length as u64,
            });
    // Name record s has cookie s + 3.
    let first_record = cookie.saturating_sub(2).min(MAX_NAMES as u64) as usize;
    let named = volume.names_of(directory, first_record).map(|named| Entry {
        child: named.child,
        length: named.length,
        text: named.text,
        cookie: named.record.0 as u64 + 3,
    });
    dots.filter(move |entry| entry.cookie > cookie).chain(named)
}

/// Writes the result of READDIR: the entries above the cookie, as many as
/// `room` bytes hold. Writes nothing if there are some and the first does not
/// fit.
fn write_listing(
    volume: &Volume<'_>,
    directory: Object,
    cookie: u64,
    room: usize,
    reply: &mut Reply<'_>,
) -> Result<(), Status> {
    let mut entries = entries(volume, directory, cookie);
    let first = entries.next();
    if first.as_ref().is_some_and(|entry| entry.bytes() > room) {
        return Err(Status::TOOSMALL);
    }
    write_status(reply, Status::OK);
    reply.optional_attributes(volume, Some(directory));
    reply.hyper(0);
    let mut room = room;
    let mut write_if_it_fits = |entry: Entry<'_>| {
        let left = room.checked_sub(entry.bytes())?;
        room = left;
        reply.entry(entry.child, entry.length, entry.text, entry.cookie);
        Some(())
    };
    let all_sent = first.map_or(Some(()), &mut write_if_it_fits).is_some()
        && entries.try_for_each(write_if_it_fits).is_some();
    reply.word(0);
    reply.boolean(all_sent);
    Ok(())
}

fn fsstat(reader: &mut Reader<'_>, volume: &Volume<'_>, reply: &mut Reply<'_>) -> Option<()> {
    let raw = handle(reader)?;
    reader.ended(())?;
    match resolve(volume, raw) {
        Ok(object) => {
            let survey = &volume.survey;
            let total = (survey.shape.blocks * BLOCK_BYTES) as u64;
            let free = (survey.free_blocks() * BLOCK_BYTES) as u64;
            let available = u64::from(survey.available.count_ones());
            write_status(reply, Status::OK);
            reply.optional_attributes(volume, Some(object));
            for number in [
                total,
                free,
                free,
                survey.shape.objects as u64,
                available,
                available,
            ] {
                reply.hyper(number);
            }
            reply.word(0);
        }
        Err(status) => write_failure(volume, None, status, reply),
    }
    Some(())
}

fn fsinfo(reader: &mut Reader<'_>, volume: &Volume<'_>, reply: &mut Reply<'_>) -> Option<()> {
    let raw = handle(reader)?;
    reader.ended(())?;
    match resolve(volume, raw) {
        Ok(object) => {
            write_status(reply, Status::OK);
            reply.optional_attributes(volume, Some(object));
            // Largest, preferred and multiple for READ, then for WRITE, then
            // preferred for READDIR.
            for number in [TRANSFER, TRANSFER, 1, TRANSFER, TRANSFER, 1, TRANSFER] {
                reply.word(number);
            }
            reply.hyper(u64::from(MAX_FILE_BYTES));
            // The finest time step: 0 seconds, 1 nanosecond.
            reply.word(0);
            reply.word(1);
            // Hard links, the same PATHCONF for all objects, times are set.
            reply.word(0x19);
        }
        Err(status) => write_failure(volume, None, status, reply),
    }
    Some(())
}

fn pathconf(reader: &mut Reader<'_>, volume: &Volume<'_>, reply: &mut Reply<'_>) -> Option<()> {
    let raw = handle(reader)?;
    reader.ended(())?;
    match resolve(volume, raw) {
        Ok(object) => {
            write_status(reply, Status::OK);
            reply.optional_attributes(volume, Some(object));
            for number in [u32::from(MAX_LINKS), MAX_NAME as u32, 1, 0, 0, 1] {
                reply.word(number);
            }
        }
        Err(status) => write_failure(volume, None, status, reply),
    }
    Some(())
}

fn commit(
    reader: &mut Reader<'_>,
    volume: &Volume<'_>,
    verifier: u64,
    reply: &mut Reply<'_>,
) -> Option<()> {
    let raw = handle(reader)?;
    let _offset = reader.hyper()?;
    let _count = reader.word()?;
    reader.ended(())?;
    let resolved = resolve(volume, raw);
    let before = resolved.ok().map(|file| volume.before(file));
    let outcome = resolved.and_then(|file| want_file(volume, file));
    write_change(volume, before, outcome, reply);
    if outcome.is_ok() {
        reply.hyper(verifier);
    }
    Some(())
}
