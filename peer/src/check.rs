//! The store check, and what it learns for the procedures.
//!
//! The check makes one pass over the object records and one over the name
//! records. It never compares records in pairs: block numbers are marked in a
//! map with one byte for each block, and names are entered in a small hash
//! table under their directory and text, which finds equal ones. A call keeps
//! what the check learns, so that a procedure knows parents and free blocks
//! without another pass.

use crate::layout::*;
use crate::name::Text;

/// Slots of the name table. At most 128 of them are ever filled.
const SLOTS: usize = 512;

/// What the check learns about a valid store.
///
/// Sets of objects are 64-bit numbers, bit i standing for object i.
pub struct Survey {
    pub shape: Shape,
    /// Objects that are directories.
    pub directories: u64,
    /// Objects that are regular files.
    pub files: u64,
    /// Free objects whose generation may still be given out.
    pub available: u64,
    /// Directories that hold at least one name.
    occupied: u64,
    /// The directory that holds each directory but the root. For a file it is
    /// the directory of one of its names.
    pub parents: [u8; MAX_OBJECTS],
    /// How many names each object has.
    pub links: [u8; MAX_OBJECTS],
    /// The lowest free name record, or the count of names if there is none.
    first_free_name: usize,
    /// One past the last used name record.
    names_end: usize,
    /// One byte for each block: 1 if a file has it, otherwise 0.
    used: [u8; MAX_BLOCKS],
    used_blocks: usize,
}

impl Default for Survey {
    fn default() -> Survey {
        Survey::new()
    }
}

impl Survey {
    /// A survey of nothing.
    #[inline]
    pub fn new() -> Survey {
        Survey {
            shape: Shape::default(),
            directories: 0,
            files: 0,
            available: 0,
            occupied: 0,
            parents: [0; MAX_OBJECTS],
            links: [0; MAX_OBJECTS],
            first_free_name: 0,
            names_end: 0,
            used: [0; MAX_BLOCKS],
            used_blocks: 0,
        }
    }

    /// Checks the store and fills a new survey. `false` means that the store
    /// fails its check; the survey is then of no use.
    pub fn fill(&mut self, store: &[u8]) -> bool {
        let Some(shape) = Shape::read(store) else {
            return false;
        };
        self.shape = shape;
        self.objects(&store[OBJECTS_AT..shape.name_count_at()])
            && self.names(&store[shape.name_count_at() + 4..shape.block_count_at()])
            && self.rooted()
            && self.blocks_distinct()
    }

    /// The pass over the object records.
    fn objects(&mut self, section: &[u8]) -> bool {
        // The largest block number in range. With no blocks at all block 0
        // passes this test and is found out when the marked blocks are counted.
        let last_block = self.shape.blocks.saturating_sub(1) as u16;
        let (mut directories, mut files, mut available) = (0u64, 0u64, 0u64);
        let mut used_blocks = 0;
        let mut bit = 1u64;
        for record in section.as_chunks::<OBJECT_BYTES>().0 {
            let kind = field(record, object_field::TYPE);
            let generation = field(record, object_field::GENERATION);
            if kind == FREE {
                if !zero_but_generation(record) {
                    return false;
                }
                if generation != SPENT_GENERATION {
                    available |= bit;
                }
            } else {
                let size = field(record, object_field::SIZE);
                let sound = (kind <= DIRECTORY)
                    & (generation != SPENT_GENERATION)
                    & (field(record, object_field::MODE) <= MAX_MODE)
                    & (field(record, object_field::ATIME + 4) < NANOSECONDS)
                    & (field(record, object_field::MTIME + 4) < NANOSECONDS)
                    & (field(record, object_field::CTIME + 4) < NANOSECONDS)
                    & (size <= MAX_FILE_BYTES)
                    & verifier_sound(record, kind);
                if !sound {
                    return false;
                }
                let count = blocks_for(size);
                let Some(places) = place_numbers(record, count, last_block) else {
                    return false;
                };
                if kind == DIRECTORY {
                    if size != 0 {
                        return false;
                    }
                    directories |= bit;
                } else {
                    files |= bit;
                    used_blocks += count;
                    for &block in places.iter().take(count) {
                        self.used[block as usize % MAX_BLOCKS] = 1;
                    }
                }
            }
            bit <<= 1;
        }
        self.directories = directories;
        self.files = files;
        self.available = available;
        self.used_blocks = used_blocks;
        directories & 1 != 0
    }

    /// The pass over the name records.
    fn names(&mut self, section: &[u8]) -> bool {
        // The objects that must be named, and of these the ones that the next
        // record may name: a directory is named once, the root never.
        let wanted = (self.directories | self.files) & !1;
        let mut allowed = wanted;
        let (mut first_free, mut names_end) = (self.shape.names, 0);
        let (mut named, mut occupied) = (0u64, 0u64);
        // Under each hash the number of a name record plus 1, or 0 in an empty
        // slot.
        let mut slots = [0u8; SLOTS];
        let records = section.as_chunks::<NAME_BYTES>().0;
        for (number, record) in records.iter().enumerate() {
            let length = name_word(record, name_field::LENGTH);
            let text = text_of(record);
            let directory = name_word(record, name_field::DIRECTORY);
            let child = name_word(record, name_field::CHILD);
            if length == 0 {
                if (directory | child) != 0 || !text.is_zero() {
                    return false;
                }
                first_free = first_free.min(number);
                continue;
            }
            if (directory >= 64) | (child >= 64) | (length > MAX_NAME as u32) {
                return false;
            }
            let length = length as usize;
            let sound = text.plain(length) & text.ends_at(length);
            if !sound | text.is_dot() | text.is_dot_dot() {
                return false;
            }
            let child_bit = 1u64 << child;
            let directory_bit = 1u64 << directory;
            if (self.directories & directory_bit == 0) | (allowed & child_bit == 0) {
                return false;
            }
            named |= child_bit;
            allowed &= self.files | !child_bit;
            occupied |= directory_bit;
            self.parents[child as usize % MAX_OBJECTS] = directory as u8;
            self.links[child as usize % MAX_OBJECTS] += 1;
            let mut slot = slot_of(directory, &text);
            while slots[slot] != 0 {
                let other = &records[usize::from(slots[slot] - 1)];
                if name_word(other, name_field::DIRECTORY) == directory && text_of(other) == text {
                    return false;
                }
                slot = (slot + 1) % SLOTS;
            }
            names_end = number + 1;
            slots[slot] = names_end as u8;
        }
        self.first_free_name = first_free;
        self.names_end = names_end;
        self.occupied = occupied;
        named == wanted && self.links_in_range()
    }

    /// Whether no object has more than 16 names. There are at most 128 names in
    /// all, so eight counts are looked at in one number without a carry.
    #[inline(always)]
    fn links_in_range(&self) -> bool {
        const BELOW_LIMIT: u64 = 0x0101_0101_0101_0101 * (127 - MAX_LINKS as u64);
        const LIMIT_BITS: u64 = 0x8080_8080_8080_8080;
        let over = self.links.as_chunks::<8>().0.iter().fold(0, |over, group| {
            over | u64::from_le_bytes(*group).wrapping_add(BELOW_LIMIT)
        });
        over & LIMIT_BITS == 0
    }

    /// Whether the parents of every directory lead to the root. Files follow,
    /// since each of their names is in a directory.
    fn rooted(&self) -> bool {
        let mut rooted = 1u64;
        let mut left = self.directories & !1;
        while left != 0 {
            let mut path = 0u64;
            let mut bit = left & left.wrapping_neg();
            while rooted & bit == 0 {
                if path & bit != 0 {
                    return false;
                }
                path |= bit;
                let parent = self.parents[bit.trailing_zeros() as usize % MAX_OBJECTS];
                bit = 1u64 << (parent & 63);
            }
            rooted |= path;
            left &= !path;
        }
        true
    }

    /// Whether no block is used twice: then as many blocks are marked as the
    /// files have in all.
    fn blocks_distinct(&self) -> bool {
        let marks = &self.used[..self.shape.blocks.min(MAX_BLOCKS)];
        let (groups, rest) = marks.as_chunks::<8>();
        // Each of the eight lanes counts at most 128 marks.
        let lanes = groups.iter().fold(0u64, |sum, group| {
            sum.wrapping_add(u64::from_le_bytes(*group))
        });
        let marked: usize = lanes
            .to_le_bytes()
            .iter()
            .map(|&lane| usize::from(lane))
            .sum();
        let rest: usize = rest.iter().map(|&mark| usize::from(mark)).sum();
        marked + rest == self.used_blocks
    }

    /// Blocks that no file has.
    pub fn free_blocks(&self) -> usize {
        self.shape.blocks - self.used_blocks
    }

    /// Marks and returns the lowest free block at or after `from`.
    pub fn take_block(&mut self, from: usize) -> Option<Block> {
        let marks = self.used.get_mut(..self.shape.blocks)?;
        let mut at = from;
        // Eight used blocks are passed over at once.
        while marks.get(at..at + 8) == Some(&[1; 8]) {
            at += 8;
        }
        at += marks.get(at..)?.iter().position(|&mark| mark == 0)?;
        marks[at] = 1;
        self.used_blocks += 1;
        Some(Block(at))
    }

    /// Marks a block as free.
    pub fn give_block(&mut self, block: Block) {
        self.used[block.0 % MAX_BLOCKS] = 0;
        self.used_blocks -= 1;
    }

    /// The lowest free name record.
    pub fn free_name(&self) -> Option<NameRecord> {
        (self.first_free_name < self.shape.names).then_some(NameRecord(self.first_free_name))
    }

    /// The lowest object that may be taken.
    pub fn free_object(&self) -> Option<Object> {
        (self.available != 0).then(|| Object(self.available.trailing_zeros() as usize))
    }

    /// Whether the object is a directory.
    #[inline(always)]
    pub fn is_directory(&self, object: Object) -> bool {
        self.directories >> object.0 & 1 != 0
    }

    /// Whether the object is live.
    #[inline(always)]
    pub fn is_live(&self, object: Object) -> bool {
        (self.directories | self.files) >> object.0 & 1 != 0
    }

    /// Whether the object is a directory that holds at least one name.
    #[inline(always)]
    pub fn is_occupied(&self, object: Object) -> bool {
        self.occupied >> object.0 & 1 != 0
    }

    /// The directory that holds a directory; the root's is the root.
    #[inline(always)]
    pub fn parent(&self, directory: Object) -> Object {
        Object(usize::from(self.parents[directory.0]))
    }

    /// How many directories a directory holds.
    pub fn subdirectories(&self, directory: Object) -> u32 {
        let mut count = 0;
        let mut left = self.directories & !1;
        while left != 0 {
            let child = left.trailing_zeros() as usize;
            count += u32::from(usize::from(self.parents[child]) == directory.0);
            left &= left - 1;
        }
        count
    }

    /// The name records of the store as it was checked, up to the last used one.
    #[inline]
    pub fn name_records<'s>(&self, store: &'s [u8]) -> &'s [[u8; NAME_BYTES]] {
        let section = &store[self.shape.name_count_at() + 4..];
        &section.as_chunks::<NAME_BYTES>().0[..self.names_end]
    }
}

/// A 32-bit field of an object record.
#[inline(always)]
fn field(record: &[u8; OBJECT_BYTES], at: usize) -> u32 {
    word(record, at)
}

/// A 32-bit field of a name record.
#[inline(always)]
fn name_word(record: &[u8; NAME_BYTES], at: usize) -> u32 {
    word(record, at)
}

/// Whether a live record keeps a verifier only where it may: the flag is 1 at
/// most on a regular file, and without it the verifier is 0.
#[inline(always)]
fn verifier_sound(record: &[u8; OBJECT_BYTES], kind: u32) -> bool {
    let flag = field(record, object_field::FLAG);
    let verifier =
        field(record, object_field::VERIFIER) | field(record, object_field::VERIFIER + 4);
    (flag <= u32::from(kind == REGULAR)) & ((flag | u32::from(verifier == 0)) != 0)
}

/// Whether every byte of a record outside its generation is 0.
#[inline(always)]
fn zero_but_generation(record: &[u8; OBJECT_BYTES]) -> bool {
    let mut seen = field(record, object_field::TYPE);
    let mut at = object_field::MODE;
    while at < OBJECT_BYTES {
        seen |= field(record, at);
        at += 4;
    }
    seen == 0
}

/// For each number of blocks: 65535 in the places that hold a block.
const USED_PLACES: [[u16; PLACES]; PLACES + 1] = {
    let mut table = [[0; PLACES]; PLACES + 1];
    let mut count = 0;
    while count <= PLACES {
        let mut place = 0;
        while place < count {
            table[count][place] = 65535;
            place += 1;
        }
        count += 1;
    }
    table
};

/// The block numbers of a record, if the first `count` are at most
/// `last_block` and the rest are unused.
#[inline(always)]
fn place_numbers(
    record: &[u8; OBJECT_BYTES],
    count: usize,
    last_block: u16,
) -> Option<[u16; PLACES]> {
    let used = &USED_PLACES[count];
    let mut numbers = [0u16; PLACES];
    let mut wrong = 0u16;
    for place in 0..PLACES {
        let at = object_field::BLOCKS + 2 * place;
        let number = u16::from_be_bytes([record[at], record[at + 1]]);
        numbers[place] = number;
        wrong |= !(number | used[place]);
        wrong |= (number & used[place]).saturating_sub(last_block);
    }
    (wrong == 0).then_some(numbers)
}

/// The name bytes of a name record.
#[inline(always)]
fn text_of(record: &[u8; NAME_BYTES]) -> Text {
    match record.last_chunk::<MAX_NAME>() {
        Some(text) => Text::of(text),
        None => Text([0; 4]),
    }
}

/// The slot from which on a name is entered.
#[inline(always)]
fn slot_of(directory: u32, text: &Text) -> usize {
    (text.hash(directory) >> 55) as usize % SLOTS
}
