//! A checked store: reading and changing its objects, names and blocks.

use crate::check::Survey;
use crate::layout::*;
use crate::search::{find, Found};

/// A checked store with its survey and the caller's clock.
pub struct Volume<'a> {
    store: &'a mut [u8],
    pub survey: &'a mut Survey,
    /// Seconds and nanoseconds as they stand in a record.
    clock: [u8; 8],
}

/// The attributes of an object before a call, as they are sent.
#[derive(Clone, Copy)]
pub struct Before {
    pub object: Object,
    pub size: u32,
    /// Modification time and change time.
    pub times: [u8; 16],
}

/// There are too few free blocks, objects or names.
#[derive(Debug)]
pub struct NoSpace;

impl<'a> Volume<'a> {
    /// A volume over a store that has passed its check with this survey.
    pub fn new(
        store: &'a mut [u8],
        survey: &'a mut Survey,
        seconds: u32,
        nanoseconds: u32,
    ) -> Volume<'a> {
        let mut clock = [0; 8];
        clock[..4].copy_from_slice(&seconds.to_be_bytes());
        clock[4..].copy_from_slice(&nanoseconds.to_be_bytes());
        Volume {
            store,
            survey,
            clock,
        }
    }

    /// The bytes of the store.
    pub fn bytes(&self) -> &[u8] {
        self.store
    }

    pub fn stamp(&self) -> u32 {
        word(self.store, STAMP_AT)
    }

    pub fn clock(&self) -> [u8; 8] {
        self.clock
    }

    /// The bytes of an object record.
    #[inline]
    pub fn record(&self, object: Object) -> &[u8; OBJECT_BYTES] {
        &self.store[OBJECTS_AT..].as_chunks::<OBJECT_BYTES>().0[object.0]
    }

    #[inline]
    fn record_mut(&mut self, object: Object) -> &mut [u8; OBJECT_BYTES] {
        &mut self.store[OBJECTS_AT..].as_chunks_mut::<OBJECT_BYTES>().0[object.0]
    }

    pub fn generation(&self, object: Object) -> u32 {
        word(self.record(object), object_field::GENERATION)
    }

    /// The size field: the length of a file, 0 for a directory.
    pub fn size(&self, object: Object) -> u32 {
        size_in(self.record(object))
    }

    /// Sets a 32-bit field of an object record.
    pub fn set_field(&mut self, object: Object, field: usize, value: u32) {
        put_word(self.record_mut(object), field, value);
    }

    /// Sets a time of an object record.
    pub fn set_time(&mut self, object: Object, field: usize, time: [u8; 8]) {
        self.record_mut(object)[field..field + 8].copy_from_slice(&time);
    }

    /// Whether the change time of an object is this one.
    pub fn changed_at(&self, object: Object, time: &[u8; 8]) -> bool {
        self.record(object)[object_field::CTIME..object_field::BLOCKS] == *time
    }

    /// Whether an object keeps this verifier.
    pub fn keeps(&self, object: Object, verifier: &[u8; 8]) -> bool {
        let record = self.record(object);
        word(record, object_field::FLAG) == 1
            && record[object_field::VERIFIER..object_field::FLAG] == *verifier
    }

    /// Lets a regular file keep a verifier.
    pub fn keep(&mut self, file: Object, verifier: &[u8; 8]) {
        self.record_mut(file)[object_field::VERIFIER..object_field::FLAG].copy_from_slice(verifier);
        self.set_field(file, object_field::FLAG, 1);
    }

    /// Lets an object keep no verifier.
    pub fn forget(&mut self, object: Object) {
        self.record_mut(object)[object_field::VERIFIER..].fill(0);
    }

    /// Sets the modification and change time of an object to the clock.
    pub fn touch(&mut self, object: Object) {
        let clock = self.clock;
        self.set_time(object, object_field::MTIME, clock);
        self.set_time(object, object_field::CTIME, clock);
    }

    /// The attributes that a reply sends as those before the call. A
    /// directory's size is sent as 512.
    pub fn before(&self, object: Object) -> Before {
        let record = self.record(object);
        let size = if self.survey.is_directory(object) {
            512
        } else {
            size_in(record)
        };
        let mut times = [0; 16];
        times.copy_from_slice(&record[object_field::MTIME..object_field::BLOCKS]);
        Before {
            object,
            size,
            times,
        }
    }

    /// Finds a name in the directory.
    pub fn find(&self, directory: Object, name: &[u8]) -> Option<Found> {
        find(self.store, self.survey, directory, name)
    }

    /// The block in a place that a file uses.
    fn block(&self, object: Object, place: usize) -> Block {
        let at = object_field::BLOCKS + 2 * place;
        let record = self.record(object);
        Block(usize::from(u16::from_be_bytes([
            record[at],
            record[at + 1],
        ])))
    }

    fn set_place(&mut self, object: Object, place: usize, number: u16) {
        let at = object_field::BLOCKS + 2 * place;
        self.record_mut(object)[at..at + 2].copy_from_slice(&number.to_be_bytes());
    }

    /// The bytes of a block.
    fn contents(&self, block: Block) -> &[u8] {
        let at = self.survey.shape.block_at(block);
        &self.store[at..at + BLOCK_BYTES]
    }

    fn contents_mut(&mut self, block: Block) -> &mut [u8] {
        let at = self.survey.shape.block_at(block);
        &mut self.store[at..at + BLOCK_BYTES]
    }

    /// Copies a file's bytes from `start` on into `target`. They lie below
    /// the file's size.
    pub fn read(&self, object: Object, start: usize, target: &mut [u8]) {
        let mut at = start;
        let mut target = target;
        while !target.is_empty() {
            let inside = at % BLOCK_BYTES;
            let count = target.len().min(BLOCK_BYTES - inside);
            let block = self.block(object, at / BLOCK_BYTES);
            let (now, later) = target.split_at_mut(count);
            now.copy_from_slice(&self.contents(block)[inside..inside + count]);
            target = later;
            at += count;
        }
    }

    /// Copies `data` into a file from `start` on, below the file's size.
    pub fn write(&mut self, object: Object, start: usize, data: &[u8]) {
        let mut at = start;
        let mut data = data;
        while !data.is_empty() {
            let inside = at % BLOCK_BYTES;
            let count = data.len().min(BLOCK_BYTES - inside);
            let block = self.block(object, at / BLOCK_BYTES);
            let (now, later) = data.split_at(count);
            self.contents_mut(block)[inside..inside + count].copy_from_slice(now);
            data = later;
            at += count;
        }
    }

    /// Gives a file another size, at most 8,192. Every byte between the old
    /// and the new end, every new block and every freed block becomes 0;
    /// other block bytes stay. With too few free blocks nothing changes.
    pub fn resize(&mut self, object: Object, size: u32) -> Result<(), NoSpace> {
        let old_size = self.size(object);
        let old_count = blocks_for(old_size);
        let count = blocks_for(size);
        if count > old_count + self.survey.free_blocks() {
            return Err(NoSpace);
        }
        // The last block that both sizes have, if the lower end lies inside it.
        let (low, high) = (old_size.min(size) as usize, old_size.max(size) as usize);
        let inside = low % BLOCK_BYTES;
        if inside != 0 {
            let place = low / BLOCK_BYTES;
            let end = (high - place * BLOCK_BYTES).min(BLOCK_BYTES);
            let block = self.block(object, place);
            self.contents_mut(block)[inside..end].fill(0);
        }
        let mut from = 0;
        for place in old_count..count {
            let Some(block) = self.survey.take_block(from) else {
                return Err(NoSpace);
            };
            from = block.0 + 1;
            self.contents_mut(block).fill(0);
            self.set_place(object, place, block.0 as u16);
        }
        for place in count..old_count {
            let block = self.block(object, place);
            self.survey.give_block(block);
            self.contents_mut(block).fill(0);
            self.set_place(object, place, NO_BLOCK);
        }
        self.set_field(object, object_field::SIZE, size);
        Ok(())
    }

    /// Makes a new object with a name in the directory, which has no such
    /// name yet. The record keeps its generation; mode, owner, group and size
    /// are 0 and all times the clock. The directory's times are set. Nothing
    /// changes when there is no room for the object, for the name, or for a
    /// file of `size` bytes.
    pub fn add(
        &mut self,
        directory: Object,
        name: &[u8],
        kind: u32,
        size: u32,
    ) -> Result<Object, NoSpace> {
        let object = self.survey.free_object().ok_or(NoSpace)?;
        let record = self.survey.free_name().ok_or(NoSpace)?;
        if blocks_for(size) > self.survey.free_blocks() {
            return Err(NoSpace);
        }
        self.write_name(record, directory, object, name);
        self.touch(directory);
        self.set_field(object, object_field::TYPE, kind);
        self.set_time(object, object_field::ATIME, self.clock);
        self.touch(object);
        self.record_mut(object)[object_field::BLOCKS..object_field::VERIFIER].fill(0xFF);
        let bit = 1 << object.0;
        self.survey.available &= !bit;
        self.survey.parents[object.0] = directory.0 as u8;
        self.survey.links[object.0] = 1;
        if kind == DIRECTORY {
            self.survey.directories |= bit;
        } else {
            self.survey.files |= bit;
            self.resize(object, size)?;
        }
        Ok(object)
    }

    /// Gives a file another name, which the directory has not. Sets the file's
    /// change time and the directory's times. Nothing changes when there is no
    /// room for the name.
    pub fn link(&mut self, file: Object, directory: Object, name: &[u8]) -> Result<(), NoSpace> {
        let record = self.survey.free_name().ok_or(NoSpace)?;
        self.write_name(record, directory, file, name);
        self.survey.links[file.0] += 1;
        self.set_time(file, object_field::CTIME, self.clock);
        self.touch(directory);
        Ok(())
    }

    /// Frees the name of an object other than the root, and sets the times of
    /// its directory. With its last name the object is freed; otherwise its
    /// change time is set.
    pub fn remove(&mut self, directory: Object, name: Found) {
        let object = name.object;
        let at = self.survey.shape.name_at(name.record);
        self.store[at..at + NAME_BYTES].fill(0);
        self.survey.links[object.0] -= 1;
        if self.survey.links[object.0] == 0 {
            self.free(object);
        } else {
            self.set_time(object, object_field::CTIME, self.clock);
        }
        self.touch(directory);
    }

    /// Frees an object and its blocks.
    fn free(&mut self, object: Object) {
        let generation = self.generation(object);
        if !self.survey.is_directory(object) {
            for place in 0..blocks_for(self.size(object)) {
                let block = self.block(object, place);
                self.survey.give_block(block);
                self.contents_mut(block).fill(0);
            }
        }
        self.record_mut(object).fill(0);
        // The generation of a live object is below the largest number.
        self.set_field(object, object_field::GENERATION, generation + 1);
        let bit = 1u64 << object.0;
        self.survey.directories &= !bit;
        self.survey.files &= !bit;
    }

    /// Turns a name of an object into one that the directory `to` has not, in
    /// the same name record. Sets the object's change time and the times of
    /// both directories.
    pub fn rename(&mut self, moved: Found, from: Object, to: Object, name: &[u8]) {
        let object = moved.object;
        self.write_name(moved.record, to, object, name);
        self.survey.parents[object.0] = to.0 as u8;
        let clock = self.clock;
        self.set_time(object, object_field::CTIME, clock);
        self.touch(from);
        self.touch(to);
    }

    fn write_name(&mut self, record: NameRecord, directory: Object, child: Object, name: &[u8]) {
        let at = self.survey.shape.name_at(record);
        let bytes = &mut self.store[at..at + NAME_BYTES];
        put_word(bytes, name_field::DIRECTORY, directory.0 as u32);
        put_word(bytes, name_field::CHILD, child.0 as u32);
        put_word(bytes, name_field::LENGTH, name.len() as u32);
        let (text, padding) = bytes[name_field::TEXT..].split_at_mut(name.len());
        text.copy_from_slice(name);
        padding.fill(0);
    }

    /// The names of a directory in ascending order of their records, from
    /// record `from` on.
    pub fn names_of(&self, directory: Object, from: usize) -> impl Iterator<Item = Named<'_>> {
        let shape = &self.survey.shape;
        let section = &self.store[shape.name_count_at() + 4..shape.block_count_at()];
        let records = section.as_chunks::<NAME_BYTES>().0;
        let wanted = directory.0 as u32;
        records
            .iter()
            .enumerate()
            .skip(from)
            .filter_map(move |(number, record)| {
                let length = word(record, name_field::LENGTH) as usize;
                if length == 0 || word(record, name_field::DIRECTORY) != wanted {
                    return None;
                }
                Some(Named {
                    record: NameRecord(number),
                    child: Object(word(record, name_field::CHILD) as usize),
                    length,
                    text: record.last_chunk::<MAX_NAME>()?,
                })
            })
    }
}

/// A used name record.
pub struct Named<'a> {
    pub record: NameRecord,
    pub child: Object,
    pub length: usize,
    /// The name with zeros after it.
    pub text: &'a [u8; MAX_NAME],
}
