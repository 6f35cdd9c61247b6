//! The store image: sections, record fields and big-endian numbers.
//!
//! The image is a sequence of four sections, each after its 4-byte count:
//! the volume (one stamp), the objects, the names and the blocks.

/// The least and the largest number of objects of a store.
pub const MIN_OBJECTS: usize = 1;
pub const MAX_OBJECTS: usize = 64;
/// The largest number of name records of a store.
pub const MAX_NAMES: usize = 128;
/// The largest number of blocks of a store.
pub const MAX_BLOCKS: usize = 1024;

/// Bytes of one object record, one name record and one block.
pub const OBJECT_BYTES: usize = 92;
pub const NAME_BYTES: usize = 44;
pub const BLOCK_BYTES: usize = 512;

/// The largest file.
pub const MAX_FILE_BYTES: u32 = 8192;
/// Block numbers in one object record.
pub const PLACES: usize = 16;
/// The block number that marks an unused place.
pub const NO_BLOCK: u16 = 65535;
/// The longest name.
pub const MAX_NAME: usize = 32;
/// The most names of one file.
pub const MAX_LINKS: u8 = 16;
/// The generation that is never given out.
pub const SPENT_GENERATION: u32 = u32::MAX;
/// The largest mode.
pub const MAX_MODE: u32 = 4095;
/// Nanoseconds are below this number.
pub const NANOSECONDS: u32 = 1_000_000_000;

/// Object types.
pub const FREE: u32 = 0;
pub const REGULAR: u32 = 1;
pub const DIRECTORY: u32 = 2;

/// Offsets of the fields of an object record.
pub mod object_field {
    pub const TYPE: usize = 0;
    pub const GENERATION: usize = 4;
    pub const MODE: usize = 8;
    pub const UID: usize = 12;
    pub const GID: usize = 16;
    pub const SIZE: usize = 20;
    pub const ATIME: usize = 24;
    pub const MTIME: usize = 32;
    pub const CTIME: usize = 40;
    pub const BLOCKS: usize = 48;
    /// The verifier of an EXCLUSIVE CREATE, 8 bytes.
    pub const VERIFIER: usize = 80;
    /// 1 on a regular file that keeps a verifier, otherwise 0.
    pub const FLAG: usize = 88;
}

/// Offsets of the fields of a name record.
pub mod name_field {
    pub const DIRECTORY: usize = 0;
    pub const CHILD: usize = 4;
    pub const LENGTH: usize = 8;
    pub const TEXT: usize = 12;
}

/// Offset of the volume's stamp.
pub const STAMP_AT: usize = 4;
/// Offset of the count of objects; the records follow it.
pub const OBJECT_COUNT_AT: usize = 8;
/// Offset of the first object record.
pub const OBJECTS_AT: usize = 12;

/// The number of an object record below the count of objects.
#[derive(Clone, Copy, PartialEq, Eq, Debug)]
pub struct Object(pub usize);

/// The number of a name record below the count of names.
#[derive(Clone, Copy, PartialEq, Eq, Debug)]
pub struct NameRecord(pub usize);

/// The number of a block below the count of blocks.
#[derive(Clone, Copy, PartialEq, Eq, Debug)]
pub struct Block(pub usize);

/// The root directory.
pub const ROOT: Object = Object(0);

/// Reads the big-endian 32-bit number at `at`, which lies inside `bytes`.
#[inline(always)]
pub fn word(bytes: &[u8], at: usize) -> u32 {
    let field = &bytes[at..at + 4];
    u32::from_be_bytes([field[0], field[1], field[2], field[3]])
}

/// Writes the big-endian 32-bit number at `at`, which lies inside `bytes`.
#[inline(always)]
pub fn put_word(bytes: &mut [u8], at: usize, value: u32) {
    bytes[at..at + 4].copy_from_slice(&value.to_be_bytes());
}

/// The counts of a store.
#[derive(Clone, Copy, PartialEq, Eq, Debug, Default)]
pub struct Shape {
    pub objects: usize,
    pub names: usize,
    pub blocks: usize,
}

impl Shape {
    /// The shape with these counts, if each of them is in range.
    pub fn new(objects: u32, names: u32, blocks: u32) -> Option<Shape> {
        let shape = Shape {
            objects: usize::try_from(objects).ok()?,
            names: usize::try_from(names).ok()?,
            blocks: usize::try_from(blocks).ok()?,
        };
        let in_range = (MIN_OBJECTS..=MAX_OBJECTS).contains(&shape.objects)
            && shape.names <= MAX_NAMES
            && shape.blocks <= MAX_BLOCKS;
        in_range.then_some(shape)
    }

    /// The shape of a store image: its counts in range and its length exactly
    /// the one they ask for.
    pub fn read(store: &[u8]) -> Option<Shape> {
        if store.len() < OBJECTS_AT || word(store, 0) != 1 {
            return None;
        }
        let objects = word(store, OBJECT_COUNT_AT);
        let with_objects = Shape::new(objects, 0, 0)?;
        let names_at = with_objects.name_count_at();
        if store.len() < names_at + 4 {
            return None;
        }
        let names = word(store, names_at);
        let with_names = Shape::new(objects, names, 0)?;
        let blocks_at = with_names.block_count_at();
        if store.len() < blocks_at + 4 {
            return None;
        }
        let shape = Shape::new(objects, names, word(store, blocks_at))?;
        (store.len() == shape.length()).then_some(shape)
    }

    /// The exact length of a store image of this shape.
    pub fn length(&self) -> usize {
        20 + OBJECT_BYTES * self.objects + NAME_BYTES * self.names + BLOCK_BYTES * self.blocks
    }

    /// Offset of an object record.
    #[inline(always)]
    pub fn object_at(&self, object: Object) -> usize {
        OBJECTS_AT + OBJECT_BYTES * object.0
    }

    /// Offset of the count of names.
    #[inline(always)]
    pub fn name_count_at(&self) -> usize {
        OBJECTS_AT + OBJECT_BYTES * self.objects
    }

    /// Offset of a name record.
    #[inline(always)]
    pub fn name_at(&self, name: NameRecord) -> usize {
        self.name_count_at() + 4 + NAME_BYTES * name.0
    }

    /// Offset of the count of blocks.
    #[inline(always)]
    pub fn block_count_at(&self) -> usize {
        self.name_count_at() + 4 + NAME_BYTES * self.names
    }

    /// Offset of a block.
    #[inline(always)]
    pub fn block_at(&self, block: Block) -> usize {
        self.block_count_at() + 4 + BLOCK_BYTES * block.0
    }
}

/// How many blocks a file of this size has.
#[inline(always)]
pub fn blocks_for(size: u32) -> usize {
    (size as usize).div_ceil(BLOCK_BYTES)
}

/// The size field of an object record: the length of a file, 0 for a
/// directory.
#[inline(always)]
pub fn size_in(record: &[u8; OBJECT_BYTES]) -> u32 {
    word(record, object_field::SIZE)
}
