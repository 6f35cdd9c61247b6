//! The store check of document 01 in its own layout, with object records of
//! 80 bytes. The converter judges old images by it.
//!
//! What was a good image stays one: this file shares nothing with the layout
//! and the check that calls go by, so that no change to them reaches it. It
//! makes one pass over the object records and one over the name records, as
//! `check` does, and keeps only what its verdict needs.

/// Offset of the count of objects; the records follow it.
const OBJECT_COUNT_AT: usize = 8;
/// Offset of the first object record.
pub const OBJECTS_AT: usize = 12;

/// Bytes of one object record, one name record and one block.
pub const OBJECT_BYTES: usize = 80;
const NAME_BYTES: usize = 44;
const BLOCK_BYTES: usize = 512;

const MAX_OBJECTS: usize = 64;
const MAX_NAMES: usize = 128;
const MAX_BLOCKS: usize = 1024;
const MAX_FILE_BYTES: u32 = 8192;
const MAX_NAME: usize = 32;
const MAX_MODE: u32 = 4095;
const NANOSECONDS: u32 = 1_000_000_000;
const SPENT_GENERATION: u32 = u32::MAX;

/// Block numbers in one object record.
const PLACES: usize = 16;

const FREE: u32 = 0;
const DIRECTORY: u32 = 2;

/// Offsets of the fields of an object record.
mod object_field {
    pub const TYPE: usize = 0;
    pub const GENERATION: usize = 4;
    pub const MODE: usize = 8;
    pub const SIZE: usize = 20;
    pub const ATIME: usize = 24;
    pub const MTIME: usize = 32;
    pub const CTIME: usize = 40;
    pub const BLOCKS: usize = 48;
}

/// Offsets of the fields of a name record; the name ends the record.
mod name_field {
    pub const DIRECTORY: usize = 0;
    pub const CHILD: usize = 4;
    pub const LENGTH: usize = 8;
}

/// The counts of an old image.
#[derive(Clone, Copy, PartialEq, Eq, Debug)]
pub struct Counts {
    pub objects: usize,
    pub names: usize,
    pub blocks: usize,
}

/// The counts of an old image that passes the check.
pub fn check(image: &[u8]) -> Option<Counts> {
    let counts = Counts::read(image)?;
    let names_at = counts.name_count_at();
    let mut survey = Survey::new(counts);
    let sound = survey.objects(&image[OBJECTS_AT..names_at])
        && survey.names(&image[names_at + 4..counts.block_count_at()])
        && survey.rooted()
        && survey.blocks_distinct();
    sound.then_some(counts)
}

impl Counts {
    /// The counts in range of an image of exactly the length they ask for.
    fn read(image: &[u8]) -> Option<Counts> {
        if count_at(image, 0, 1)? != 1 {
            return None;
        }
        let mut counts = Counts {
            objects: count_at(image, OBJECT_COUNT_AT, MAX_OBJECTS)?,
            names: 0,
            blocks: 0,
        };
        counts.names = count_at(image, counts.name_count_at(), MAX_NAMES)?;
        counts.blocks = count_at(image, counts.block_count_at(), MAX_BLOCKS)?;
        (counts.objects > 0 && image.len() == counts.length()).then_some(counts)
    }

    /// The exact length of an old image of these counts.
    pub fn length(&self) -> usize {
        self.block_count_at() + 4 + BLOCK_BYTES * self.blocks
    }

    /// Offset of the count of names; the records follow it.
    pub fn name_count_at(&self) -> usize {
        OBJECTS_AT + OBJECT_BYTES * self.objects
    }

    /// Offset of the count of blocks; the blocks follow it.
    pub fn block_count_at(&self) -> usize {
        self.name_count_at() + 4 + NAME_BYTES * self.names
    }
}

/// The count at `at`, if it is there and at most `most`.
fn count_at(image: &[u8], at: usize, most: usize) -> Option<usize> {
    let field = image.get(at..)?.first_chunk::<4>()?;
    let count = u32::from_be_bytes(*field) as usize;
    (count <= most).then_some(count)
}

/// Slots of the name table. At most 63 of them are ever filled.
const SLOTS: usize = 512;

/// What the passes leave for each other. Sets of objects are 64-bit numbers,
/// bit i standing for object i.
struct Survey {
    counts: Counts,
    directories: u64,
    files: u64,
    /// The directory and the name record of each live object but the root.
    parents: [u8; MAX_OBJECTS],
    records: [u8; MAX_OBJECTS],
    /// One byte for each block: 1 if a file has it, otherwise 0.
    used: [u8; MAX_BLOCKS],
    used_blocks: usize,
    /// Under each hash an object number plus 1, or 0 in an empty slot.
    slots: [u8; SLOTS],
}

impl Survey {
    fn new(counts: Counts) -> Survey {
        Survey {
            counts,
            directories: 0,
            files: 0,
            parents: [0; MAX_OBJECTS],
            records: [0; MAX_OBJECTS],
            used: [0; MAX_BLOCKS],
            used_blocks: 0,
            slots: [0; SLOTS],
        }
    }

    /// The pass over the object records.
    fn objects(&mut self, section: &[u8]) -> bool {
        // The largest block number in range. With no blocks at all block 0
        // passes this test and is found out when the marked blocks are counted.
        let last_block = self.counts.blocks.saturating_sub(1) as u16;
        let mut bit = 1u64;
        for record in section.as_chunks::<OBJECT_BYTES>().0 {
            let kind = word(record, object_field::TYPE);
            if kind == FREE {
                if !zero_but_generation(record) {
                    return false;
                }
            } else {
                let size = word(record, object_field::SIZE);
                let sound = (kind <= DIRECTORY)
                    & (word(record, object_field::GENERATION) != SPENT_GENERATION)
                    & (word(record, object_field::MODE) <= MAX_MODE)
                    & (word(record, object_field::ATIME + 4) < NANOSECONDS)
                    & (word(record, object_field::MTIME + 4) < NANOSECONDS)
                    & (word(record, object_field::CTIME + 4) < NANOSECONDS)
                    & (size <= MAX_FILE_BYTES);
                if !sound {
                    return false;
                }
                let count = (size as usize).div_ceil(BLOCK_BYTES);
                let Some(places) = place_numbers(record, count, last_block) else {
                    return false;
                };
                if kind == DIRECTORY {
                    if size != 0 {
                        return false;
                    }
                    self.directories |= bit;
                } else {
                    self.files |= bit;
                    self.used_blocks += count;
                    for &block in places.iter().take(count) {
                        self.used[block as usize % MAX_BLOCKS] = 1;
                    }
                }
            }
            bit <<= 1;
        }
        self.directories & 1 != 0
    }

    /// The pass over the name records.
    fn names(&mut self, section: &[u8]) -> bool {
        let live = self.directories | self.files;
        let mut named = 0u64;
        let records = section.as_chunks::<NAME_BYTES>().0;
        for (number, record) in records.iter().enumerate() {
            let length = word(record, name_field::LENGTH);
            let text = Text::of(record);
            let directory = word(record, name_field::DIRECTORY);
            let child = word(record, name_field::CHILD);
            if length == 0 {
                if (directory | child) != 0 || text != Text([0; 4]) {
                    return false;
                }
                continue;
            }
            if (directory >= 64) | (child >= 64) | (length > MAX_NAME as u32) {
                return false;
            }
            if !text.sound(length as usize) | text.is_dots() {
                return false;
            }
            let child_bit = 1u64 << child;
            let directory_bit = 1u64 << directory;
            if (self.directories & directory_bit == 0) | ((live & !named) & child_bit == 0) {
                return false;
            }
            named |= child_bit;
            self.parents[child as usize % MAX_OBJECTS] = directory as u8;
            self.records[child as usize % MAX_OBJECTS] = number as u8;
            let mut slot = text.slot(directory);
            while self.slots[slot] != 0 {
                let other = self.records[(self.slots[slot] - 1) as usize % MAX_OBJECTS] as usize;
                if word(&records[other], name_field::DIRECTORY) == directory
                    && Text::of(&records[other]) == text
                {
                    return false;
                }
                slot = (slot + 1) % SLOTS;
            }
            self.slots[slot] = child as u8 + 1;
        }
        // Every live object but the root is named once, the root never.
        named == live & !1
    }

    /// Whether the parents of every directory lead to the root. Files follow,
    /// since each of them is in a directory.
    fn rooted(&self) -> bool {
        let mut rooted = 1u64;
        let mut left = self.directories & !1;
        while left != 0 {
            let mut path = 0u64;
            let mut bit = left & left.wrapping_neg();
            while rooted & bit == 0 {
                if path & bit != 0 {
                    return false;
                }
                path |= bit;
                let parent = self.parents[bit.trailing_zeros() as usize % MAX_OBJECTS];
                bit = 1u64 << (parent & 63);
            }
            rooted |= path;
            left &= !path;
        }
        true
    }

    /// Whether no block is used twice: then as many blocks are marked as the
    /// files have in all.
    fn blocks_distinct(&self) -> bool {
        let marks = &self.used[..self.counts.blocks.min(MAX_BLOCKS)];
        let (groups, rest) = marks.as_chunks::<8>();
        // Each of the eight lanes counts at most 128 marks.
        let lanes = groups.iter().fold(0u64, |sum, group| {
            sum.wrapping_add(u64::from_le_bytes(*group))
        });
        let marked: usize = lanes
            .to_le_bytes()
            .iter()
            .map(|&lane| usize::from(lane))
            .sum();
        let rest: usize = rest.iter().map(|&mark| usize::from(mark)).sum();
        marked + rest == self.used_blocks
    }
}

/// The big-endian 32-bit number at `at` in a record.
#[inline(always)]
fn word<const BYTES: usize>(record: &[u8; BYTES], at: usize) -> u32 {
    let field = &record[at..at + 4];
    u32::from_be_bytes([field[0], field[1], field[2], field[3]])
}

/// Whether every byte of a record outside its generation is 0.
#[inline(always)]
fn zero_but_generation(record: &[u8; OBJECT_BYTES]) -> bool {
    let mut seen = word(record, object_field::TYPE);
    let mut at = object_field::MODE;
    while at < OBJECT_BYTES {
        seen |= word(record, at);
        at += 4;
    }
    seen == 0
}

/// For each number of blocks: 65535 in the places that hold a block.
const USED_PLACES: [[u16; PLACES]; PLACES + 1] = {
    let mut table = [[0; PLACES]; PLACES + 1];
    let mut count = 0;
    while count <= PLACES {
        let mut place = 0;
        while place < count {
            table[count][place] = 65535;
            place += 1;
        }
        count += 1;
    }
    table
};

/// The block numbers of a record, if the first `count` are at most
/// `last_block` and the rest are 65535.
#[inline(always)]
fn place_numbers(
    record: &[u8; OBJECT_BYTES],
    count: usize,
    last_block: u16,
) -> Option<[u16; PLACES]> {
    let used = &USED_PLACES[count];
    let mut numbers = [0u16; PLACES];
    let mut wrong = 0u16;
    for place in 0..PLACES {
        let at = object_field::BLOCKS + 2 * place;
        let number = u16::from_be_bytes([record[at], record[at + 1]]);
        numbers[place] = number;
        wrong |= !(number | used[place]);
        wrong |= (number & used[place]).saturating_sub(last_block);
    }
    (wrong == 0).then_some(numbers)
}

/// The name bytes of a record as four 64-bit numbers, the first byte lowest.
#[derive(Clone, Copy, PartialEq, Eq)]
struct Text([u64; 4]);

/// For each length of a name: bytes of value 255 where the name stands.
const MASKS: [[u64; 4]; MAX_NAME + 1] = {
    let mut table = [[0; 4]; MAX_NAME + 1];
    let mut length = 0;
    while length <= MAX_NAME {
        let mut at = 0;
        while at < length {
            table[length][at / 8] |= 255 << (8 * (at % 8));
            at += 1;
        }
        length += 1;
    }
    table
};

/// Nonzero exactly when one of the eight bytes is 0.
#[inline(always)]
fn zero_byte(value: u64) -> u64 {
    value.wrapping_sub(0x0101_0101_0101_0101) & !value & 0x8080_8080_8080_8080
}

impl Text {
    #[inline(always)]
    fn of(record: &[u8; NAME_BYTES]) -> Text {
        let bytes = &record[NAME_BYTES - MAX_NAME..];
        let groups = bytes.as_chunks::<8>().0;
        Text([
            u64::from_le_bytes(groups[0]),
            u64::from_le_bytes(groups[1]),
            u64::from_le_bytes(groups[2]),
            u64::from_le_bytes(groups[3]),
        ])
    }

    /// Whether no byte of the first `length`, at most 32, is 0 or 0x2F, and
    /// every byte after them is 0.
    #[inline(always)]
    fn sound(&self, length: usize) -> bool {
        let mask = &MASKS[length.min(MAX_NAME)];
        let mut wrong = 0;
        for (word, inside) in self.0.iter().zip(mask) {
            wrong |= zero_byte(word | !inside);
            wrong |= zero_byte((word ^ 0x2F2F_2F2F_2F2F_2F2F) | !inside);
            wrong |= word & !inside;
        }
        wrong == 0
    }

    /// Whether a sound name is "." or "..".
    #[inline(always)]
    fn is_dots(&self) -> bool {
        (self.0[0] == 0x2E) | (self.0[0] == 0x2E2E)
    }

    /// The slot where the search for this name in the directory starts.
    #[inline(always)]
    fn slot(&self, directory: u32) -> usize {
        let hash = u64::from(directory)
            .wrapping_mul(0x9E37_79B9_7F4A_7C15)
            .wrapping_add(self.0[0].wrapping_mul(0xD131_0BA6_98DF_B5AD))
            .wrapping_add(self.0[1].wrapping_mul(0x4528_21E6_38D0_1377))
            .wrapping_add(self.0[2].wrapping_mul(0x9216_D5D9_8979_FB1B))
            .wrapping_add(self.0[3].wrapping_mul(0x243F_6A88_85A3_08D3));
        (hash >> 55) as usize % SLOTS
    }
}
