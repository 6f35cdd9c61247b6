//! Reading XDR (RFC 4506) from the bytes of a call.

/// Reads items from the front of a slice. Each read answers `None` if the item
/// is cut short or is not of its type; the reader then stands where that item
/// starts, so that what is left begins with the fault.
pub struct Reader<'a> {
    rest: &'a [u8],
}

impl<'a> Reader<'a> {
    #[inline]
    pub fn new(bytes: &'a [u8]) -> Reader<'a> {
        Reader { rest: bytes }
    }

    /// What has not been read.
    #[inline]
    pub fn rest(&self) -> &'a [u8] {
        self.rest
    }

    /// The word that comes next, if it is there.
    #[inline]
    fn next_word(&self) -> Option<(u32, &'a [u8])> {
        let (word, after) = self.rest.split_first_chunk::<4>()?;
        Some((u32::from_be_bytes(*word), after))
    }

    /// An opaque field of fixed length, a multiple of 4.
    #[inline]
    pub fn fixed<const LENGTH: usize>(&mut self) -> Option<&'a [u8; LENGTH]> {
        let (field, rest) = self.rest.split_first_chunk::<LENGTH>()?;
        self.rest = rest;
        Some(field)
    }

    /// An unsigned 32-bit number.
    #[inline]
    pub fn word(&mut self) -> Option<u32> {
        self.fixed::<4>().map(|field| u32::from_be_bytes(*field))
    }

    /// An unsigned 64-bit number.
    #[inline]
    pub fn hyper(&mut self) -> Option<u64> {
        self.fixed::<8>().map(|field| u64::from_be_bytes(*field))
    }

    /// An enum with the values 0 to `last`.
    #[inline]
    pub fn choice(&mut self, last: u32) -> Option<u32> {
        let (value, after) = self.next_word()?;
        if value > last {
            return None;
        }
        self.rest = after;
        Some(value)
    }

    /// A number that can only be this one.
    #[inline]
    pub fn exactly(&mut self, only: u32) -> Option<()> {
        let (value, after) = self.next_word()?;
        if value != only {
            return None;
        }
        self.rest = after;
        Some(())
    }

    /// A boolean.
    #[inline]
    pub fn boolean(&mut self) -> Option<bool> {
        self.choice(1).map(|value| value == 1)
    }

    /// A time, which is two items: seconds and nanoseconds as sent.
    #[inline]
    pub fn time(&mut self) -> Option<[u8; 8]> {
        let seconds = self.word()?;
        let nanoseconds = self.word()?;
        Some(((u64::from(seconds) << 32) | u64::from(nanoseconds)).to_be_bytes())
    }

    /// A value that is there when the boolean before it is true.
    #[inline]
    pub fn optional<T>(&mut self, read: impl FnOnce(&mut Self) -> Option<T>) -> Option<Option<T>> {
        if self.boolean()? {
            read(self).map(Some)
        } else {
            Some(None)
        }
    }

    /// An opaque field or string of variable length, at most `limit` bytes,
    /// with pad bytes of any value up to a multiple of 4.
    #[inline]
    pub fn opaque(&mut self, limit: usize) -> Option<&'a [u8]> {
        let (length, after) = self.next_word()?;
        let length = usize::try_from(length).ok()?;
        if length > limit {
            return None;
        }
        let (bytes, after) = after.split_at_checked(length)?;
        self.rest = after.get(length.wrapping_neg() % 4..)?;
        Some(bytes)
    }

    /// A string or opaque field whose type has no maximum length.
    #[inline]
    pub fn unlimited(&mut self) -> Option<&'a [u8]> {
        self.opaque(usize::MAX)
    }

    /// `value` if nothing is left to read. Otherwise the reader stands at the
    /// first byte left over.
    #[inline]
    pub fn ended<T>(&self, value: T) -> Option<T> {
        self.rest.is_empty().then_some(value)
    }
}
