//! The arguments of the served procedures (RFC 1813, section 3.3).

use crate::layout::{MAX_FILE_BYTES, MAX_MODE, NANOSECONDS};
use crate::xdr::Reader;

/// The largest handle of the protocol.
const MAX_HANDLE: usize = 64;

/// The bytes of a handle, not yet looked at.
pub type RawHandle<'a> = &'a [u8];

/// Reads a handle of 0 to 64 bytes.
#[inline]
pub fn handle<'a>(reader: &mut Reader<'a>) -> Option<RawHandle<'a>> {
    reader.opaque(MAX_HANDLE)
}

/// A directory and a name in it.
pub struct Place<'a> {
    pub directory: RawHandle<'a>,
    pub name: &'a [u8],
}

impl<'a> Place<'a> {
    #[inline]
    pub fn read(reader: &mut Reader<'a>) -> Option<Place<'a>> {
        Some(Place {
            directory: handle(reader)?,
            name: reader.unlimited()?,
        })
    }
}

/// What a call wants done with a time.
#[derive(Clone, Copy)]
pub enum SetTime {
    Keep,
    ToClock,
    /// Seconds and nanoseconds as sent.
    To([u8; 8]),
}

impl SetTime {
    fn read(reader: &mut Reader<'_>) -> Option<SetTime> {
        match reader.choice(2)? {
            0 => Some(SetTime::Keep),
            1 => Some(SetTime::ToClock),
            _ => reader.time().map(SetTime::To),
        }
    }

    fn valid(&self) -> bool {
        match self {
            SetTime::To([_, _, _, _, nanoseconds @ ..]) => {
                u32::from_be_bytes(*nanoseconds) < NANOSECONDS
            }
            _ => true,
        }
    }

    /// The time to set, if one is given.
    pub fn given(&self, clock: [u8; 8]) -> Option<[u8; 8]> {
        match self {
            SetTime::Keep => None,
            SetTime::ToClock => Some(clock),
            SetTime::To(time) => Some(*time),
        }
    }
}

/// The attributes that a call wants set.
pub struct Wanted {
    pub mode: Option<u32>,
    pub uid: Option<u32>,
    pub gid: Option<u32>,
    pub size: Option<u64>,
    pub atime: SetTime,
    pub mtime: SetTime,
}

impl Wanted {
    pub fn read(reader: &mut Reader<'_>) -> Option<Wanted> {
        Some(Wanted {
            mode: reader.optional(Reader::word)?,
            uid: reader.optional(Reader::word)?,
            gid: reader.optional(Reader::word)?,
            size: reader.optional(Reader::hyper)?,
            atime: SetTime::read(reader)?,
            mtime: SetTime::read(reader)?,
        })
    }

    /// Whether mode, times and size are in range.
    pub fn valid(&self) -> bool {
        self.mode.is_none_or(|mode| mode <= MAX_MODE)
            && self.atime.valid()
            && self.mtime.valid()
            && self
                .size
                .is_none_or(|size| size <= u64::from(MAX_FILE_BYTES))
    }

    /// The size to set, when it is in range.
    pub fn valid_size(&self) -> Option<u32> {
        self.size.and_then(|size| u32::try_from(size).ok())
    }
}

/// How CREATE makes a file.
pub enum How {
    Unchecked(Wanted),
    Guarded(Wanted),
    /// The verifier as sent.
    Exclusive([u8; 8]),
}

impl How {
    pub fn read(reader: &mut Reader<'_>) -> Option<How> {
        match reader.choice(2)? {
            0 => Wanted::read(reader).map(How::Unchecked),
            1 => Wanted::read(reader).map(How::Guarded),
            _ => reader
                .fixed::<8>()
                .map(|verifier| How::Exclusive(*verifier)),
        }
    }
}
