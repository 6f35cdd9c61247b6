//! A store taken apart: what calls that change names leave of it, and what they
//! answer.

use crate::generator::encode::opaque;
use crate::generator::lane::Lane;
use crate::generator::view::View;
use crate::layout::*;
use crate::numbers::Status;

/// A directory's handle and a name in it.
pub type Place<'a> = (&'a [u8], &'a [u8]);

/// Seconds and nanoseconds.
pub type Clock = (u32, u32);

/// The clock of the last call.
pub fn clock_of(lane: &Lane<'_>) -> Clock {
    (lane.seconds, lane.nanoseconds)
}

/// The bytes of a store, to work out what REMOVE, RENAME and LINK leave and
/// answer. Nothing here is code of the entries but the check and the layout.
#[derive(Clone)]
pub struct Image {
    pub shape: Shape,
    pub bytes: Vec<u8>,
}

impl Image {
    pub fn of(lane: &Lane<'_>) -> Image {
        Image {
            shape: lane.shape,
            bytes: lane.driver.store().to_vec(),
        }
    }

    pub fn view(&self) -> View {
        View::of(&self.bytes).expect("a valid store")
    }

    /// The name record and the object of a name.
    pub fn find(&self, (directory, name): Place<'_>) -> (usize, usize) {
        let view = self.view();
        let found = view.find(directory, name).expect("a name that exists");
        (found.record, found.child)
    }

    pub fn object(&mut self, object: usize) -> &mut [u8] {
        let at = self.shape.object_at(Object(object));
        &mut self.bytes[at..at + OBJECT_BYTES]
    }

    pub fn name(&mut self, record: usize) -> &mut [u8] {
        let at = self.shape.name_at(NameRecord(record));
        &mut self.bytes[at..at + NAME_BYTES]
    }

    pub fn block(&mut self, block: usize) -> &mut [u8] {
        let at = self.shape.block_at(Block(block));
        &mut self.bytes[at..at + BLOCK_BYTES]
    }

    pub fn field(&self, object: usize, field: usize) -> u32 {
        word(&self.bytes, self.shape.object_at(Object(object)) + field)
    }

    /// The blocks of a live object.
    pub fn blocks(&self, object: usize) -> Vec<usize> {
        let at = self.shape.object_at(Object(object)) + object_field::BLOCKS;
        self.bytes[at..at + 2 * PLACES]
            .chunks(2)
            .map(|number| usize::from(number[0]) << 8 | usize::from(number[1]))
            .filter(|&number| number != 65535)
            .collect()
    }

    /// The attributes of a live object as they are sent.
    pub fn attributes(&self, object: usize) -> Vec<u8> {
        let view = self.view();
        let kind = self.field(object, object_field::TYPE);
        let (links, size, used) = if kind == DIRECTORY {
            let inside = view.names.iter().filter(|named| named.directory == object);
            let inner = inside.filter(|named| view.is_directory(named.child));
            (2 + inner.count() as u32, 512, 0)
        } else {
            let used = 512 * self.blocks(object).len() as u32;
            let names = view.names.iter().filter(|named| named.child == object);
            (
                names.count() as u32,
                self.field(object, object_field::SIZE),
                used,
            )
        };
        let words = [
            kind,
            self.field(object, object_field::MODE),
            links,
            self.field(object, object_field::UID),
            self.field(object, object_field::GID),
            0,
            size,
            0,
            used,
            0,
            0,
            0,
            view.stamp,
            0,
            object as u32 + 1,
        ];
        let mut bytes: Vec<u8> = words.iter().flat_map(|word| word.to_be_bytes()).collect();
        let at = self.shape.object_at(Object(object));
        bytes.extend(&self.bytes[at + object_field::ATIME..at + object_field::BLOCKS]);
        bytes
    }

    /// What a reply says of a handle before and after a call.
    pub fn change(&self, after: &Image, handle: &[u8]) -> Vec<u8> {
        if !self.view().is_live(handle) {
            return vec![0; 8];
        }
        let object = word(handle, 4) as usize;
        let attributes = self.attributes(object);
        // The size, and the last two times.
        let mut bytes = 1u32.to_be_bytes().to_vec();
        bytes.extend(&attributes[20..28]);
        bytes.extend(&attributes[68..84]);
        bytes.extend(1u32.to_be_bytes());
        bytes.extend(after.attributes(object));
        bytes
    }

    /// The result of RENAME: a status and both directories.
    pub fn result(&self, after: &Image, status: Status, from: Place<'_>, to: Place<'_>) -> Vec<u8> {
        let mut bytes = status.0.to_be_bytes().to_vec();
        bytes.extend(self.change(after, from.0));
        bytes.extend(self.change(after, to.0));
        bytes
    }

    /// Sets times of an object to the clock.
    fn set_times(&mut self, object: usize, fields: &[usize], clock: Clock) {
        for &field in fields {
            put_word(self.object(object), field, clock.0);
            put_word(self.object(object), field + 4, clock.1);
        }
    }

    /// Sets the times of a directory that gets or loses a name.
    fn touch(&mut self, directory: &[u8], clock: Clock) {
        let both = [object_field::MTIME, object_field::CTIME];
        self.set_times(word(directory, 4) as usize, &both, clock);
    }

    fn set_name(&mut self, record: usize, child: usize, (directory, text): Place<'_>) {
        let name = self.name(record);
        name.fill(0);
        put_word(name, name_field::DIRECTORY, word(directory, 4));
        put_word(name, name_field::CHILD, child as u32);
        put_word(name, name_field::LENGTH, text.len() as u32);
        name[name_field::TEXT..][..text.len()].copy_from_slice(text);
    }

    /// How many used name records lead to an object.
    pub fn links(&self, object: usize) -> usize {
        (0..self.shape.names)
            .filter(|&record| {
                let at = self.shape.name_at(NameRecord(record));
                word(&self.bytes, at + name_field::LENGTH) != 0
                    && word(&self.bytes, at + name_field::CHILD) as usize == object
            })
            .count()
    }

    /// Frees the record of a name, and its object if that was the last one.
    fn unname(&mut self, place: Place<'_>, clock: Clock) {
        let (record, object) = self.find(place);
        self.name(record).fill(0);
        if self.links(object) > 0 {
            self.set_times(object, &[object_field::CTIME], clock);
            return;
        }
        for block in self.blocks(object) {
            self.block(block).fill(0);
        }
        let generation = self.field(object, object_field::GENERATION) + 1;
        self.object(object).fill(0);
        put_word(self.object(object), object_field::GENERATION, generation);
    }

    /// What a REMOVE that succeeds makes of the store.
    pub fn remove(&mut self, place: Place<'_>, clock: Clock) {
        self.unname(place, clock);
        self.touch(place.0, clock);
    }

    /// What a RENAME that replaces another object makes of the store.
    pub fn rename(&mut self, from: Place<'_>, to: Place<'_>, clock: Clock) {
        let (record, moved) = self.find(from);
        self.unname(to, clock);
        self.set_name(record, moved, to);
        self.set_times(moved, &[object_field::CTIME], clock);
        self.touch(from.0, clock);
        self.touch(to.0, clock);
    }

    /// What a RENAME to a new name makes of the store.
    pub fn move_name(&mut self, from: Place<'_>, to: Place<'_>, clock: Clock) {
        let (record, moved) = self.find(from);
        self.set_name(record, moved, to);
        self.set_times(moved, &[object_field::CTIME], clock);
        self.touch(from.0, clock);
        self.touch(to.0, clock);
    }

    /// What a LINK that succeeds makes of the store.
    pub fn link(&mut self, file: &[u8], to: Place<'_>, clock: Clock) {
        let object = word(file, 4) as usize;
        let free = (0..self.shape.names).find(|&record| self.name(record)[8..12] == [0; 4]);
        self.set_name(free.expect("a free name record"), object, to);
        self.set_times(object, &[object_field::CTIME], clock);
        self.touch(to.0, clock);
    }

    /// The result of LINK: a status, the file and the directory.
    pub fn link_result(&self, after: &Image, status: Status, file: &[u8], to: &[u8]) -> Vec<u8> {
        let mut bytes = status.0.to_be_bytes().to_vec();
        let live = self.view().is_live(file);
        bytes.extend(u32::from(live).to_be_bytes());
        if live {
            bytes.extend(after.attributes(word(file, 4) as usize));
        }
        bytes.extend(self.change(after, to));
        bytes
    }

    /// The result of REMOVE: a status and the directory.
    pub fn remove_result(&self, after: &Image, status: Status, directory: &[u8]) -> Vec<u8> {
        let mut bytes = status.0.to_be_bytes().to_vec();
        bytes.extend(self.change(after, directory));
        bytes
    }
}

/// The result of READDIR from its status on, for a live directory and a count of
/// at least 104.
pub fn listing(image: &Image, directory: &[u8], cookie: u64, count: u32) -> Vec<u8> {
    let view = image.view();
    let number = word(directory, 4) as usize;
    let above = view.names.iter().find(|named| named.child == number);
    let parent = above.map_or(0, |named| named.directory);
    let dots = [(1, &b"."[..], number), (2, b"..", parent)];
    let named = view.names.iter().filter(|named| named.directory == number);
    let named = named.map(|named| (named.record as u64 + 3, &named.name[..], named.child));
    let entries = dots.into_iter().chain(named);
    let entries: Vec<_> = entries.filter(|entry| entry.0 > cookie).collect();
    let mut room = count.min(4096) as usize - 104;
    let mut bytes = vec![0, 0, 0, 0, 0, 0, 0, 1];
    bytes.extend(image.attributes(number));
    bytes.extend([0; 8]);
    let mut sent = 0;
    for (cookie, name, child) in &entries {
        let mut entry = vec![0, 0, 0, 1];
        entry.extend((*child as u64 + 1).to_be_bytes());
        opaque(&mut entry, name);
        entry.extend(cookie.to_be_bytes());
        if entry.len() > room {
            break;
        }
        room -= entry.len();
        bytes.extend(entry);
        sent += 1;
    }
    bytes.extend([0; 4]);
    bytes.extend(u32::from(sent == entries.len()).to_be_bytes());
    bytes
}
