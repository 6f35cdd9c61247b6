//! A store with a clock, and replies taken apart.

#![allow(dead_code)]

pub mod plain;
pub mod plain_names;

use peer::generator::encode::{handle, Attributes, How, Request};
use peer::layout::Shape;

pub const STAMP: u32 = 0x5354_414D;
pub const SPARE: u8 = 0x5A;
/// Bytes of an object record.
pub const RECORD: usize = 92;

/// A store under test. Every call is checked for what holds for all calls.
pub struct Lane {
    pub store: Vec<u8>,
    pub seconds: u32,
    pub nanoseconds: u32,
    pub verifier: u64,
    pub shape: Shape,
}

pub type Time = (u32, u32);

#[derive(Clone, Debug, PartialEq, Eq)]
pub struct Attr {
    pub kind: u32,
    pub mode: u32,
    pub nlink: u32,
    pub uid: u32,
    pub gid: u32,
    pub size: u64,
    pub used: u64,
    pub rdev: (u32, u32),
    pub fsid: u64,
    pub fileid: u64,
    pub atime: Time,
    pub mtime: Time,
    pub ctime: Time,
}

#[derive(Clone, Debug, PartialEq, Eq)]
pub struct Wcc {
    pub before: Option<(u64, Time, Time)>,
    pub after: Option<Attr>,
}

impl Wcc {
    pub fn none(&self) -> bool {
        self.before.is_none() && self.after.is_none()
    }

    /// Before equals after, as in every failure.
    pub fn unchanged(&self) -> bool {
        match (&self.before, &self.after) {
            (Some(before), Some(after)) => *before == (after.size, after.mtime, after.ctime),
            _ => false,
        }
    }
}

/// A reply, read from the front.
#[derive(Clone, Debug)]
pub struct Got {
    pub bytes: Vec<u8>,
    pub at: usize,
}

impl Got {
    pub fn word(&mut self) -> u32 {
        let value = u32::from_be_bytes(self.bytes[self.at..self.at + 4].try_into().unwrap());
        self.at += 4;
        value
    }

    pub fn hyper(&mut self) -> u64 {
        (u64::from(self.word()) << 32) | u64::from(self.word())
    }

    pub fn time(&mut self) -> Time {
        (self.word(), self.word())
    }

    pub fn opaque(&mut self) -> Vec<u8> {
        let length = self.word() as usize;
        let value = self.bytes[self.at..self.at + length].to_vec();
        let padded = length.next_multiple_of(4);
        assert!(self.bytes[self.at + length..self.at + padded]
            .iter()
            .all(|&byte| byte == 0));
        self.at += padded;
        value
    }

    pub fn attr(&mut self) -> Attr {
        Attr {
            kind: self.word(),
            mode: self.word(),
            nlink: self.word(),
            uid: self.word(),
            gid: self.word(),
            size: self.hyper(),
            used: self.hyper(),
            rdev: (self.word(), self.word()),
            fsid: self.hyper(),
            fileid: self.hyper(),
            atime: self.time(),
            mtime: self.time(),
            ctime: self.time(),
        }
    }

    pub fn optional_attr(&mut self) -> Option<Attr> {
        match self.word() {
            0 => None,
            1 => Some(self.attr()),
            other => panic!("boolean {other}"),
        }
    }

    pub fn wcc(&mut self) -> Wcc {
        let before = match self.word() {
            0 => None,
            1 => Some((self.hyper(), self.time(), self.time())),
            other => panic!("boolean {other}"),
        };
        Wcc {
            before,
            after: self.optional_attr(),
        }
    }

    pub fn end(&self) {
        assert_eq!(self.at, self.bytes.len(), "reply has more bytes");
    }

    /// The status, after the head of a successful reply.
    pub fn status(&mut self) -> u32 {
        assert_eq!(self.at, 0);
        let _xid = self.word();
        let head: Vec<u32> = (0..5).map(|_| self.word()).collect();
        assert_eq!(head, [1, 0, 0, 0, 0]);
        self.word()
    }
}

pub fn words(bytes: &[u8]) -> Vec<u32> {
    assert_eq!(bytes.len() % 4, 0);
    bytes
        .chunks(4)
        .map(|word| u32::from_be_bytes(word.try_into().unwrap()))
        .collect()
}

pub fn root() -> Vec<u8> {
    handle(STAMP, 0, 0)
}

impl Lane {
    pub fn new(objects: u32, names: u32, blocks: u32) -> Lane {
        let shape = Shape::new(objects, names, blocks).unwrap();
        let mut store = vec![0xA5; shape.length()];
        let answer = peer::format(&mut store, STAMP, objects, names, blocks, 1000, 1);
        assert_eq!((answer.number, answer.length), (0, 0));
        Lane {
            store,
            seconds: 1001,
            nanoseconds: 5,
            verifier: 0x0102_0304_0506_0708,
            shape,
        }
    }

    pub fn clock(&self) -> Time {
        (self.seconds, self.nanoseconds)
    }

    pub fn tick(&mut self) {
        self.seconds += 1;
        self.nanoseconds = (self.nanoseconds + 7) % 1_000_000_000;
    }

    /// The reply to any bytes; the answer must be 0.
    pub fn raw(&mut self, call: &[u8]) -> Got {
        let mut reply = vec![SPARE; 4224 + 16];
        let before = self.store.clone();
        let answer = peer::call(
            call,
            &mut self.store,
            &mut reply,
            self.seconds,
            self.nanoseconds,
            self.verifier,
        );
        assert_eq!(answer.number, 0);
        let length = answer.length as usize;
        assert!(reply[length..].iter().all(|&byte| byte == SPARE));
        reply.truncate(length);
        assert_eq!(length % 4, 0);
        assert_eq!(peer::check(&self.store).number, 0, "store after a call");
        let failed = length < 28 || words(&reply)[5] != 0 || words(&reply)[6] != 0;
        if failed {
            assert!(before == self.store, "a failure changed the store");
        }
        Got {
            bytes: reply,
            at: 0,
        }
    }

    pub fn send(&mut self, request: &Request) -> Got {
        self.raw(&request.call(0x7069_6473))
    }

    /// Sends and reads the status.
    pub fn ask(&mut self, request: &Request) -> (u32, Got) {
        let mut got = self.send(request);
        let status = got.status();
        (status, got)
    }

    pub fn status(&mut self, request: &Request) -> u32 {
        self.ask(request).0
    }

    /// Makes a file and returns its handle.
    pub fn create(&mut self, directory: &[u8], name: &[u8]) -> Vec<u8> {
        let (status, mut got) = self.ask(&create(directory, name, Attributes::default()));
        assert_eq!(status, 0);
        assert_eq!(got.word(), 1);
        got.opaque()
    }

    /// Makes a directory and returns its handle.
    pub fn mkdir(&mut self, directory: &[u8], name: &[u8]) -> Vec<u8> {
        let (status, mut got) = self.ask(&mkdir(directory, name, Attributes::default()));
        assert_eq!(status, 0);
        assert_eq!(got.word(), 1);
        got.opaque()
    }

    pub fn write(&mut self, file: &[u8], offset: u64, data: &[u8]) -> u32 {
        self.status(&write(file, offset, data))
    }

    pub fn read(&mut self, file: &[u8], offset: u64, count: u32) -> (Vec<u8>, bool) {
        let (status, mut got) = self.ask(&Request::Read {
            file: file.to_vec(),
            offset,
            count,
        });
        assert_eq!(status, 0);
        got.optional_attr().unwrap();
        let sent = got.word();
        let eof = got.word() == 1;
        let data = got.opaque();
        got.end();
        assert_eq!(sent as usize, data.len());
        (data, eof)
    }

    pub fn attr(&mut self, object: &[u8]) -> Attr {
        let (status, mut got) = self.ask(&getattr(object));
        assert_eq!(status, 0);
        got.attr()
    }

    /// Free bytes and available objects.
    pub fn space(&mut self) -> (u64, u64) {
        let (status, mut got) = self.ask(&Request::Fsstat { object: root() });
        assert_eq!(status, 0);
        got.optional_attr().unwrap();
        let numbers: Vec<u64> = (0..6).map(|_| got.hyper()).collect();
        assert_eq!(numbers[1], numbers[2]);
        assert_eq!(numbers[4], numbers[5]);
        (numbers[1], numbers[4])
    }

    /// Sets a field of an object record.
    pub fn poke_object(&mut self, object: usize, field: usize, value: u32) {
        let at = 12 + RECORD * object + field;
        self.store[at..at + 4].copy_from_slice(&value.to_be_bytes());
    }

    pub fn block_at(&self, block: usize) -> usize {
        self.store.len() - 512 * (self.shape.blocks - block)
    }

    /// The bytes of an object record.
    pub fn record(&self, object: usize) -> &[u8] {
        &self.store[12 + RECORD * object..][..RECORD]
    }

    /// The block numbers of an object.
    pub fn places(&self, object: usize) -> Vec<u16> {
        let at = 12 + RECORD * object + 48;
        self.store[at..at + 32]
            .chunks(2)
            .map(|number| u16::from_be_bytes([number[0], number[1]]))
            .collect()
    }

    /// A name record: directory, child, length and 32 bytes.
    pub fn name(&self, record: usize) -> (u32, u32, u32, Vec<u8>) {
        let at = 16 + RECORD * self.shape.objects + 44 * record;
        let head = words(&self.store[at..at + 12]);
        (
            head[0],
            head[1],
            head[2],
            self.store[at + 12..at + 44].to_vec(),
        )
    }
}

/// The image in the layout of document 01 of a store in which no file keeps a
/// verifier: its records without their last 12 bytes.
pub fn old_image(store: &[u8]) -> Vec<u8> {
    let objects = words(&store[8..12])[0] as usize;
    let (records, rest) = store[12..].split_at(RECORD * objects);
    let mut image = store[..12].to_vec();
    for record in records.chunks(RECORD) {
        assert_eq!(record[80..], [0; 12]);
        image.extend(&record[..80]);
    }
    image.extend(rest);
    image
}

/// The store that a sound image in the layout of document 01 becomes.
pub fn store_of(image: &[u8]) -> Vec<u8> {
    let objects = words(&image[8..12])[0] as usize;
    let (records, rest) = image[12..].split_at(80 * objects);
    let mut store = image[..12].to_vec();
    for record in records.chunks(80) {
        store.extend(record);
        store.extend([0; 12]);
    }
    store.extend(rest);
    store
}

pub fn getattr(object: &[u8]) -> Request {
    Request::Getattr {
        object: object.to_vec(),
    }
}

pub fn lookup(directory: &[u8], name: &[u8]) -> Request {
    Request::Lookup {
        directory: directory.to_vec(),
        name: name.to_vec(),
    }
}

pub fn create(directory: &[u8], name: &[u8], attributes: Attributes) -> Request {
    Request::Create {
        directory: directory.to_vec(),
        name: name.to_vec(),
        how: How::Guarded(attributes),
    }
}

pub fn unchecked(directory: &[u8], name: &[u8], attributes: Attributes) -> Request {
    Request::Create {
        directory: directory.to_vec(),
        name: name.to_vec(),
        how: How::Unchecked(attributes),
    }
}

pub fn exclusive(directory: &[u8], name: &[u8], verifier: [u8; 8]) -> Request {
    Request::Create {
        directory: directory.to_vec(),
        name: name.to_vec(),
        how: How::Exclusive(verifier),
    }
}

pub fn mkdir(directory: &[u8], name: &[u8], attributes: Attributes) -> Request {
    Request::Mkdir {
        directory: directory.to_vec(),
        name: name.to_vec(),
        attributes,
    }
}

pub fn setattr(object: &[u8], attributes: Attributes, guard: Option<Time>) -> Request {
    Request::Setattr {
        object: object.to_vec(),
        attributes,
        guard,
    }
}

pub fn write(file: &[u8], offset: u64, data: &[u8]) -> Request {
    Request::Write {
        file: file.to_vec(),
        offset,
        count: data.len() as u32,
        stable: 0,
        data: data.to_vec(),
    }
}

pub fn remove(directory: &[u8], name: &[u8]) -> Request {
    Request::Remove {
        directory: directory.to_vec(),
        name: name.to_vec(),
    }
}

pub fn rmdir(directory: &[u8], name: &[u8]) -> Request {
    Request::Rmdir {
        directory: directory.to_vec(),
        name: name.to_vec(),
    }
}

pub fn rename(from: &[u8], from_name: &[u8], to: &[u8], to_name: &[u8]) -> Request {
    Request::Rename {
        from: from.to_vec(),
        from_name: from_name.to_vec(),
        to: to.to_vec(),
        to_name: to_name.to_vec(),
    }
}

pub fn link(file: &[u8], directory: &[u8], name: &[u8]) -> Request {
    Request::Link {
        file: file.to_vec(),
        directory: directory.to_vec(),
        name: name.to_vec(),
    }
}

pub fn readdir(directory: &[u8], cookie: u64, count: u32) -> Request {
    Request::Readdir {
        directory: directory.to_vec(),
        cookie,
        verifier: [0; 8],
        count,
    }
}

/// Every status number used by documents 01 and 02.
pub mod status {
    pub const OK: u32 = 0;
    pub const NOENT: u32 = 2;
    pub const ACCES: u32 = 13;
    pub const EXIST: u32 = 17;
    pub const NOTDIR: u32 = 20;
    pub const INVAL: u32 = 22;
    pub const FBIG: u32 = 27;
    pub const NOSPC: u32 = 28;
    pub const MLINK: u32 = 31;
    pub const NAMETOOLONG: u32 = 63;
    pub const NOTEMPTY: u32 = 66;
    pub const STALE: u32 = 70;
    pub const BADHANDLE: u32 = 10001;
    pub const NOT_SYNC: u32 = 10002;
    pub const BAD_COOKIE: u32 = 10003;
    pub const NOTSUPP: u32 = 10004;
    pub const TOOSMALL: u32 = 10005;
}
