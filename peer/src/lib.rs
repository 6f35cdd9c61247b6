//! A small NFS version 3 file store on lent buffers.
//!
//! The caller owns the socket, the store and the mount table. It hands in the
//! bytes of one RPC call, the store image, for MOUNT the table too, and a space
//! for the reply, and gets back a number, the reply's length and the place at
//! which the call is broken. A call allocates nothing and keeps nothing.

#![forbid(unsafe_code)]

mod arguments;
pub mod check;
mod component;
mod convert;
mod format;
pub mod generator;
pub mod layout;
mod mount;
pub mod mount_table;
mod name;
pub mod numbers;
pub mod old_check;
mod procedures;
mod reply;
mod rpc;
mod search;
mod volume;
mod xdr;

use numbers::{message, mount_procedure, procedure};
use reply::Reply;
use rpc::Program;

pub use convert::convert;
pub use format::format;
pub use reply::{MOUNT_REPLY_SPACE, REPLY_SPACE};
pub use search::{search, Search};

/// The longest call.
pub const MAX_CALL: usize = 8192;

/// The programs of the two entries for calls.
const NFS: Program = Program {
    number: message::PROGRAM,
    last_procedure: procedure::LAST,
};
const MOUNT: Program = Program {
    number: message::MOUNT_PROGRAM,
    last_procedure: mount_procedure::LAST,
};

/// What an entry point answers.
///
/// Number 0 means done, with the reply's length. The others are refusals with
/// length 0 that leave every lent buffer as it was: 1 the store, or the old
/// image, fails its check, 2 too little reply space, 3 clock nanoseconds out of
/// range, 4 call too long, 5 call under 8 bytes, 6 a count out of range or a
/// buffer of another length, 7 a message type other than 0, 8 a call header cut
/// short, 9 an overlong credential or verifier, 12 the mount table fails its
/// check.
///
/// The offset is that of the call's byte where the faulty item starts, for 8, 9
/// and GARBAGE_ARGS, or of the first byte left over; otherwise it is 0.
#[derive(Clone, Copy, PartialEq, Eq, Debug)]
pub struct Answer {
    pub number: u32,
    pub length: u32,
    pub offset: u32,
}

impl Answer {
    fn refused(number: u32) -> Answer {
        Answer {
            number,
            length: 0,
            offset: 0,
        }
    }

    /// Done, without a reply.
    const DONE: Answer = Answer {
        number: 0,
        length: 0,
        offset: 0,
    };
}

/// Checks a store: number 0 if it is valid, otherwise 1.
pub fn check(store: &[u8]) -> Answer {
    let mut survey = check::Survey::new();
    if survey.fill(store) {
        Answer::DONE
    } else {
        Answer::refused(1)
    }
}

/// Answers one RPC call from the store, with the time and the WRITE verifier
/// of the caller.
pub fn call(
    call: &[u8],
    store: &mut [u8],
    reply: &mut [u8],
    seconds: u32,
    nanoseconds: u32,
    verifier: u64,
) -> Answer {
    let Some(space) = reply.first_chunk_mut::<REPLY_SPACE>() else {
        return Answer::refused(2);
    };
    if nanoseconds >= layout::NANOSECONDS {
        return Answer::refused(3);
    }
    if call.len() > MAX_CALL {
        return Answer::refused(4);
    }
    let mut survey = check::Survey::new();
    if !survey.fill(store) {
        return Answer::refused(1);
    }
    let Some(header) = rpc::read_header(call) else {
        return rpc::refusal(call);
    };
    let mut reply = Reply::new(space);
    rpc::answer(
        call,
        header,
        &NFS,
        &mut reply,
        |procedure, arguments, reply| {
            let mut volume = volume::Volume::new(store, &mut survey, seconds, nanoseconds);
            procedures::run(procedure, arguments, &mut volume, verifier, reply)
        },
    )
}

/// Answers one RPC call of the MOUNT program from the store, which stays as it
/// is, and from the mount table. `host` is the caller's address, its first
/// decimal in the highest byte.
pub fn mount(call: &[u8], store: &[u8], table: &mut [u8], reply: &mut [u8], host: u32) -> Answer {
    let Some(space) = reply.first_chunk_mut::<MOUNT_REPLY_SPACE>() else {
        return Answer::refused(2);
    };
    if call.len() > MAX_CALL {
        return Answer::refused(4);
    }
    let mut survey = check::Survey::new();
    if !survey.fill(store) {
        return Answer::refused(1);
    }
    let Some(mut table) = mount_table::Table::new(table) else {
        return Answer::refused(12);
    };
    let Some(header) = rpc::read_header(call) else {
        return rpc::refusal(call);
    };
    let mut reply = Reply::new(space);
    rpc::answer(
        call,
        header,
        &MOUNT,
        &mut reply,
        |procedure, arguments, reply| {
            mount::run(
                procedure, arguments, store, &survey, &mut table, host, reply,
            )
        },
    )
}
