//! Writing XDR into the reply space.

use crate::layout::{blocks_for, size_in, Object, BLOCK_BYTES, MAX_NAME, OBJECT_BYTES};
use crate::volume::{Before, Volume};

/// The least reply space, and the length of the longest reply.
pub const REPLY_SPACE: usize = 4224;
/// The same for the MOUNT entry: a list of 32 rows with the longest hosts and
/// paths.
pub const MOUNT_REPLY_SPACE: usize = 33_692;

/// Writes fields one after the other. No reply is longer than the space.
pub struct Reply<'a, const SPACE: usize = REPLY_SPACE> {
    space: &'a mut [u8; SPACE],
    length: usize,
}

impl<'a, const SPACE: usize> Reply<'a, SPACE> {
    #[inline]
    pub fn new(space: &'a mut [u8; SPACE]) -> Reply<'a, SPACE> {
        Reply { space, length: 0 }
    }

    /// How many bytes have been written.
    #[inline]
    pub fn length(&self) -> u32 {
        self.length as u32
    }

    /// The next `count` bytes of the space, to be written.
    #[inline]
    pub fn room(&mut self, count: usize) -> &mut [u8] {
        let start = self.length;
        self.length += count;
        &mut self.space[start..start + count]
    }

    /// The next bytes of the space as an array, so that fields at fixed
    /// offsets are written without further tests.
    #[inline]
    fn array<const COUNT: usize>(&mut self) -> &mut [u8; COUNT] {
        let start = self.length;
        self.length += COUNT;
        let rest = &mut self.space[start..];
        // A reply never outgrows the space, so the array is always there.
        match rest.first_chunk_mut::<COUNT>() {
            Some(array) => array,
            None => unreachable!("a reply is at most {SPACE} bytes long"),
        }
    }

    #[inline]
    fn bytes<const COUNT: usize>(&mut self, bytes: &[u8; COUNT]) {
        *self.array() = *bytes;
    }

    #[inline]
    pub fn word(&mut self, value: u32) {
        self.bytes(&value.to_be_bytes());
    }

    #[inline]
    pub fn hyper(&mut self, value: u64) {
        self.bytes(&value.to_be_bytes());
    }

    #[inline]
    pub fn boolean(&mut self, value: bool) {
        self.word(u32::from(value));
    }

    /// Overwrites a word written earlier.
    #[inline]
    pub fn set_word(&mut self, at: usize, value: u32) {
        self.space[at..at + 4].copy_from_slice(&value.to_be_bytes());
    }

    pub fn zero_words(&mut self, count: usize) {
        self.room(4 * count).fill(0);
    }

    /// The zeros after a field of variable length.
    #[inline]
    pub fn padding(&mut self, length: usize) {
        self.room(length.wrapping_neg() % 4).fill(0);
    }

    /// A field of variable length: its length, and its bytes with their
    /// padding. The bytes have zeros after the field up to a multiple of 4.
    pub fn padded(&mut self, bytes: &[u8], length: usize) {
        self.word(length as u32);
        let count = length.next_multiple_of(4);
        self.room(count).copy_from_slice(&bytes[..count]);
    }

    /// A handle: its length, then stamp, object, generation.
    pub fn handle(&mut self, stamp: u32, object: Object, generation: u32) {
        let fields = self.array::<16>();
        fields[0..4].copy_from_slice(&12u32.to_be_bytes());
        fields[4..8].copy_from_slice(&stamp.to_be_bytes());
        fields[8..12].copy_from_slice(&(object.0 as u32).to_be_bytes());
        fields[12..16].copy_from_slice(&generation.to_be_bytes());
    }

    /// The attributes of a live object.
    pub fn attributes(&mut self, volume: &Volume<'_>, object: Object) {
        let record: &[u8; OBJECT_BYTES] = volume.record(object);
        let (nlink, size, used) = if volume.survey.is_directory(object) {
            (2 + volume.survey.subdirectories(object), 512, 0)
        } else {
            let size = size_in(record);
            let links = u32::from(volume.survey.links[object.0]);
            (links, size, blocks_for(size) * BLOCK_BYTES)
        };
        let fields = self.array::<84>();
        // Type and mode stand in the record as they are sent.
        fields[0..4].copy_from_slice(&record[0..4]);
        fields[4..8].copy_from_slice(&record[8..12]);
        fields[8..12].copy_from_slice(&nlink.to_be_bytes());
        // Owner and group.
        fields[12..20].copy_from_slice(&record[12..20]);
        fields[20..28].copy_from_slice(&u64::from(size).to_be_bytes());
        fields[28..36].copy_from_slice(&(used as u64).to_be_bytes());
        // The two words of the device number.
        fields[36..44].fill(0);
        // The file system and the file.
        fields[44..52].copy_from_slice(&u64::from(volume.stamp()).to_be_bytes());
        fields[52..60].copy_from_slice(&(object.0 as u64 + 1).to_be_bytes());
        // The three times.
        fields[60..84].copy_from_slice(&record[24..48]);
    }

    /// Attributes that are there for a live object.
    pub fn optional_attributes(&mut self, volume: &Volume<'_>, object: Option<Object>) {
        self.boolean(object.is_some());
        if let Some(object) = object {
            self.attributes(volume, object);
        }
    }

    /// The attributes before the call and after it, there for a live object.
    pub fn change(&mut self, volume: &Volume<'_>, before: Option<Before>) {
        match before {
            Some(before) => {
                let fields = self.array::<32>();
                fields[0..4].copy_from_slice(&1u32.to_be_bytes());
                fields[4..12].copy_from_slice(&u64::from(before.size).to_be_bytes());
                fields[12..28].copy_from_slice(&before.times);
                fields[28..32].copy_from_slice(&1u32.to_be_bytes());
                self.attributes(volume, before.object);
            }
            None => self.zero_words(2),
        }
    }

    /// An entry of a listing. The text is the name with zeros after it, so
    /// the padding is copied with the name.
    pub fn entry(&mut self, object: Object, length: usize, text: &[u8; MAX_NAME], cookie: u64) {
        let head = self.array::<16>();
        head[0..4].copy_from_slice(&1u32.to_be_bytes());
        head[4..12].copy_from_slice(&(object.0 as u64 + 1).to_be_bytes());
        head[12..16].copy_from_slice(&(length as u32).to_be_bytes());
        let words = text.as_chunks::<4>().0;
        for word in words.iter().take(length.div_ceil(4)) {
            self.bytes(word);
        }
        self.hyper(cookie);
    }
}
