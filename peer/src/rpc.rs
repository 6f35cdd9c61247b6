//! RPC messages (RFC 5531): the header of a call and the head of a reply.

use crate::numbers::{message, refusal};
use crate::reply::Reply;
use crate::xdr::Reader;
use crate::Answer;

/// The header of a call.
pub enum Header<'a> {
    /// An RPC version other than 2; nothing after it is read.
    OtherVersion { xid: u32 },
    /// A complete header of RPC version 2, with the argument bytes.
    Complete {
        xid: u32,
        program: u32,
        version: u32,
        procedure: u32,
        arguments: &'a [u8],
    },
}

/// Reads the header of a call. `None` means that there is no complete one; the
/// reader then stands at the fault.
#[inline]
fn read<'a>(reader: &mut Reader<'a>) -> Option<Header<'a>> {
    let xid = reader.word()?;
    reader.exactly(message::CALL)?;
    if reader.word()? != message::RPC_VERSION {
        return Some(Header::OtherVersion { xid });
    }
    let program = reader.word()?;
    let version = reader.word()?;
    let procedure = reader.word()?;
    for _credential_then_verifier in 0..2 {
        let _flavor = reader.word()?;
        reader.opaque(message::MAX_AUTH)?;
    }
    Some(Header::Complete {
        xid,
        program,
        version,
        procedure,
        arguments: reader.rest(),
    })
}

/// Reads the header of a call. `None` means that there is no complete one.
pub fn read_header(call: &[u8]) -> Option<Header<'_>> {
    read(&mut Reader::new(call))
}

/// How an entry refuses a call that has no complete header. It is read once
/// more for its place, which nobody keeps otherwise.
#[cold]
pub fn refusal(call: &[u8]) -> Answer {
    let mut reader = Reader::new(call);
    let _none = read(&mut reader);
    let offset = place(call, reader.rest());
    if call.len() < KIND_END {
        Answer::refused(refusal::NO_MESSAGE)
    } else if (offset as usize) < KIND_END {
        Answer::refused(refusal::NO_CALL)
    } else {
        // Of all that a header holds only a body has a length.
        let number = match reader.word() {
            Some(length) if length as usize > message::MAX_AUTH => refusal::OVERLONG,
            _ => refusal::CUT_HEADER,
        };
        Answer {
            number,
            length: 0,
            offset,
        }
    }
}

/// Where the message type ends.
const KIND_END: usize = 8;

/// The offset of what is left of a call.
fn place(call: &[u8], rest: &[u8]) -> u32 {
    (call.len() - rest.len()) as u32
}

/// A program that an entry serves.
pub struct Program {
    pub number: u32,
    /// The largest procedure number.
    pub last_procedure: u32,
}

/// Arguments that are not exactly of their type: what is left of them from the
/// faulty item on.
pub struct Garbage<'a>(pub &'a [u8]);

/// Answers a call with this header. `run` runs a procedure of the program and
/// writes its result; where the arguments are garbage it has written nothing.
#[inline]
pub fn answer<'a, const SPACE: usize>(
    call: &'a [u8],
    header: Header<'a>,
    served: &Program,
    reply: &mut Reply<'_, SPACE>,
    run: impl FnOnce(u32, &'a [u8], &mut Reply<'_, SPACE>) -> Result<(), Garbage<'a>>,
) -> Answer {
    let mut offset = 0;
    match header {
        Header::OtherVersion { xid } => write_denied(reply, xid),
        Header::Complete {
            xid,
            program,
            version,
            procedure,
            arguments,
        } => {
            if program != served.number {
                write_accepted(reply, xid, message::PROG_UNAVAIL);
            } else if version != message::VERSION {
                write_accepted(reply, xid, message::PROG_MISMATCH);
                reply.word(message::VERSION);
                reply.word(message::VERSION);
            } else if procedure > served.last_procedure {
                write_accepted(reply, xid, message::PROC_UNAVAIL);
            } else {
                write_accepted(reply, xid, message::SUCCESS);
                if let Err(Garbage(rest)) = run(procedure, arguments, reply) {
                    // Nothing follows the head; only the outcome changes.
                    reply.set_word(20, message::GARBAGE_ARGS);
                    offset = place(call, rest);
                }
            }
        }
    }
    Answer {
        number: 0,
        length: reply.length(),
        offset,
    }
}

/// Writes the reply to a call of another RPC version.
fn write_denied<const SPACE: usize>(reply: &mut Reply<'_, SPACE>, xid: u32) {
    reply.word(xid);
    reply.word(message::REPLY);
    reply.word(message::DENIED);
    reply.word(message::RPC_MISMATCH);
    reply.word(message::RPC_VERSION);
    reply.word(message::RPC_VERSION);
}

/// Writes the head of an accepted reply: its verifier has flavor 0 and
/// length 0.
fn write_accepted<const SPACE: usize>(reply: &mut Reply<'_, SPACE>, xid: u32, outcome: u32) {
    reply.word(xid);
    reply.word(message::REPLY);
    reply.word(message::ACCEPTED);
    reply.word(0);
    reply.word(0);
    reply.word(outcome);
}
