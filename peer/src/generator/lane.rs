//! One run on a formatted store: a clock, and calls by their arguments.

use super::driver::{Call, Driver, Format, Outcome};
use super::encode::{handle, Attributes, How, Request};
use super::rules;
use crate::layout::{Block, NameRecord, Object, Shape};
use crate::numbers::Status;

/// The group of labels for statuses that a script brings about.
pub const STATUSES: &str = "Statuses brought about one by one";

/// A run under way.
pub struct Lane<'d> {
    pub driver: &'d mut dyn Driver,
    pub shape: Shape,
    pub stamp: u32,
    pub seconds: u32,
    pub nanoseconds: u32,
    pub verifier: u64,
    pub space: usize,
    xid: u32,
}

/// The status of a reply, if the call was accepted and is not NULL.
pub fn status_of(reply: &[u8]) -> Option<u32> {
    let word = |at: usize| -> Option<u32> {
        reply
            .get(4 * at..4 * at + 4)
            .map(|field| u32::from_be_bytes([field[0], field[1], field[2], field[3]]))
    };
    if word(2) == Some(0) && word(5) == Some(0) {
        word(6)
    } else {
        None
    }
}

impl<'d> Lane<'d> {
    /// Starts a run and formats a store of this shape.
    pub fn open(
        driver: &'d mut dyn Driver,
        number: u32,
        title: &str,
        shape: Shape,
        stamp: u32,
    ) -> Lane<'d> {
        let lane = Lane::unformatted(driver, number, title, shape, stamp);
        let answer = lane.driver.format(Format {
            stamp,
            objects: shape.objects as u32,
            names: shape.names as u32,
            blocks: shape.blocks as u32,
            seconds: lane.seconds,
            nanoseconds: lane.nanoseconds,
        });
        assert_eq!(answer.number, 0);
        lane
    }

    /// Starts a run with a buffer for a store of this shape.
    pub fn unformatted(
        driver: &'d mut dyn Driver,
        number: u32,
        title: &str,
        shape: Shape,
        stamp: u32,
    ) -> Lane<'d> {
        driver.start(number, shape.length(), title);
        Lane {
            driver,
            shape,
            stamp,
            seconds: 1000,
            nanoseconds: 1,
            verifier: 0x0102_0304_0506_0708,
            space: 4224,
            xid: number.wrapping_mul(0x0001_0001),
        }
    }

    pub fn root(&self) -> Vec<u8> {
        handle(self.stamp, 0, 0)
    }

    pub fn next_xid(&mut self) -> u32 {
        self.xid = self.xid.wrapping_add(1);
        self.xid
    }

    /// Sends any bytes at the next moment of the clock.
    pub fn raw(&mut self, bytes: &[u8]) -> Outcome {
        self.seconds = self.seconds.wrapping_add(1);
        self.nanoseconds = (self.nanoseconds + 1_000_003) % 1_000_000_000;
        self.verifier = self.verifier.rotate_left(5).wrapping_add(3);
        self.driver.call(Call {
            bytes,
            seconds: self.seconds,
            nanoseconds: self.nanoseconds,
            verifier: self.verifier,
            space: self.space,
        })
    }

    pub fn send(&mut self, request: &Request) -> Outcome {
        let xid = self.next_xid();
        self.raw(&request.call(xid))
    }

    pub fn status(&mut self, request: &Request) -> Option<u32> {
        status_of(&self.send(request).reply)
    }

    /// Sends a call whose status is known in advance.
    pub fn expect(&mut self, label: &str, request: &Request, status: Status) -> Outcome {
        self.driver.note(STATUSES, label);
        let outcome = self.send(request);
        assert_eq!(
            status_of(&outcome.reply),
            Some(status.0),
            "{label}: {request:?}"
        );
        outcome
    }

    /// Counts a rule that the script has just seen hold.
    pub fn rule(&mut self, label: &str) {
        assert!(rules::all().iter().any(|known| known == label), "{label}");
        self.driver.note(rules::GROUP, label);
    }

    /// Sends a call that succeeds.
    pub fn done(&mut self, request: &Request) -> Outcome {
        let outcome = self.send(request);
        assert_eq!(status_of(&outcome.reply), Some(0), "{request:?}");
        outcome
    }

    /// Makes a file and returns its handle.
    pub fn create(&mut self, directory: &[u8], name: &[u8], size: u64) -> Vec<u8> {
        let attributes = Attributes {
            mode: Some(0o644),
            ..Attributes::size(size)
        };
        let outcome = self.done(&guarded(directory, name, attributes));
        outcome.reply[36..48].to_vec()
    }

    /// Makes a file EXCLUSIVE and returns its handle.
    pub fn exclusive(&mut self, directory: &[u8], name: &[u8], verifier: [u8; 8]) -> Vec<u8> {
        let outcome = self.done(&exclusive(directory, name, verifier));
        outcome.reply[36..48].to_vec()
    }

    /// Makes a directory and returns its handle.
    pub fn mkdir(&mut self, directory: &[u8], name: &[u8]) -> Vec<u8> {
        let outcome = self.done(&mkdir(directory, name, Attributes::mode(0o755)));
        outcome.reply[36..48].to_vec()
    }

    pub fn object_at(&self, object: usize) -> usize {
        self.shape.object_at(Object(object))
    }

    pub fn name_at(&self, record: usize) -> usize {
        self.shape.name_at(NameRecord(record))
    }

    pub fn block_at(&self, block: usize) -> usize {
        self.shape.block_at(Block(block))
    }

    /// Overwrites a 32-bit field.
    pub fn patch_word(&mut self, at: usize, value: u32) {
        self.driver.patch(at, &value.to_be_bytes());
    }
}

pub fn getattr(object: &[u8]) -> Request {
    Request::Getattr {
        object: object.to_vec(),
    }
}

pub fn setattr(object: &[u8], attributes: Attributes, guard: Option<(u32, u32)>) -> Request {
    Request::Setattr {
        object: object.to_vec(),
        attributes,
        guard,
    }
}

pub fn lookup(directory: &[u8], name: &[u8]) -> Request {
    Request::Lookup {
        directory: directory.to_vec(),
        name: name.to_vec(),
    }
}

pub fn access(object: &[u8], access: u32) -> Request {
    Request::Access {
        object: object.to_vec(),
        access,
    }
}

pub fn read(file: &[u8], offset: u64, count: u32) -> Request {
    Request::Read {
        file: file.to_vec(),
        offset,
        count,
    }
}

pub fn write(file: &[u8], offset: u64, data: &[u8]) -> Request {
    Request::Write {
        file: file.to_vec(),
        offset,
        count: data.len() as u32,
        stable: 0,
        data: data.to_vec(),
    }
}

pub fn write_as(file: &[u8], offset: u64, count: u32, stable: u32, data: &[u8]) -> Request {
    Request::Write {
        file: file.to_vec(),
        offset,
        count,
        stable,
        data: data.to_vec(),
    }
}

pub fn guarded(directory: &[u8], name: &[u8], attributes: Attributes) -> Request {
    Request::Create {
        directory: directory.to_vec(),
        name: name.to_vec(),
        how: How::Guarded(attributes),
    }
}

pub fn unchecked(directory: &[u8], name: &[u8], attributes: Attributes) -> Request {
    Request::Create {
        directory: directory.to_vec(),
        name: name.to_vec(),
        how: How::Unchecked(attributes),
    }
}

pub fn exclusive(directory: &[u8], name: &[u8], verifier: [u8; 8]) -> Request {
    Request::Create {
        directory: directory.to_vec(),
        name: name.to_vec(),
        how: How::Exclusive(verifier),
    }
}

pub fn mkdir(directory: &[u8], name: &[u8], attributes: Attributes) -> Request {
    Request::Mkdir {
        directory: directory.to_vec(),
        name: name.to_vec(),
        attributes,
    }
}

pub fn remove(directory: &[u8], name: &[u8]) -> Request {
    Request::Remove {
        directory: directory.to_vec(),
        name: name.to_vec(),
    }
}

pub fn rmdir(directory: &[u8], name: &[u8]) -> Request {
    Request::Rmdir {
        directory: directory.to_vec(),
        name: name.to_vec(),
    }
}

pub fn rename(from: &[u8], from_name: &[u8], to: &[u8], to_name: &[u8]) -> Request {
    Request::Rename {
        from: from.to_vec(),
        from_name: from_name.to_vec(),
        to: to.to_vec(),
        to_name: to_name.to_vec(),
    }
}

pub fn link(file: &[u8], directory: &[u8], name: &[u8]) -> Request {
    Request::Link {
        file: file.to_vec(),
        directory: directory.to_vec(),
        name: name.to_vec(),
    }
}

pub fn readdir(directory: &[u8], cookie: u64, verifier: u64, count: u32) -> Request {
    Request::Readdir {
        directory: directory.to_vec(),
        cookie,
        verifier: verifier.to_be_bytes(),
        count,
    }
}

pub fn fsstat(object: &[u8]) -> Request {
    Request::Fsstat {
        object: object.to_vec(),
    }
}

pub fn fsinfo(object: &[u8]) -> Request {
    Request::Fsinfo {
        object: object.to_vec(),
    }
}

pub fn pathconf(object: &[u8]) -> Request {
    Request::Pathconf {
        object: object.to_vec(),
    }
}

pub fn commit(file: &[u8], offset: u64, count: u32) -> Request {
    Request::Commit {
        file: file.to_vec(),
        offset,
        count,
    }
}
