//! The C interface of the static libraries.

use peer::generator::driver::{Call, Format, Mount};
use peer::Answer;

/// What every entry returns by value: `struct nfs3_answer` of three 32-bit
/// numbers.
#[repr(C)]
struct RawAnswer {
    number: u32,
    length: u32,
    offset: u32,
}

impl From<RawAnswer> for Answer {
    fn from(raw: RawAnswer) -> Answer {
        Answer {
            number: raw.number,
            length: raw.length,
            offset: raw.offset,
        }
    }
}

extern "C" {
    fn nfs3_call(
        call: *const u8,
        call_len: usize,
        store: *mut u8,
        store_len: usize,
        reply: *mut u8,
        reply_len: usize,
        seconds: u32,
        nanoseconds: u32,
        verifier: u64,
    ) -> RawAnswer;
    fn nfs3_check(store: *const u8, store_len: usize) -> RawAnswer;
    fn nfs3_format(
        store: *mut u8,
        store_len: usize,
        stamp: u32,
        objects: u32,
        names: u32,
        blocks: u32,
        seconds: u32,
        nanoseconds: u32,
    ) -> RawAnswer;
    fn nfs3_convert(old: *const u8, old_len: usize, store: *mut u8, store_len: usize) -> RawAnswer;
}

/// Answers one call; the arguments are those of the peer's `call`.
pub fn call(call: &Call<'_>, store: &mut [u8], reply: &mut [u8]) -> Answer {
    // SAFETY: the pointers and lengths are those of slices, which are never
    // null and, borrowed as they are, never overlap.
    let raw = unsafe {
        nfs3_call(
            call.bytes.as_ptr(),
            call.bytes.len(),
            store.as_mut_ptr(),
            store.len(),
            reply.as_mut_ptr(),
            reply.len(),
            call.seconds,
            call.nanoseconds,
            call.verifier,
        )
    };
    raw.into()
}

/// Checks a store.
pub fn check(store: &[u8]) -> Answer {
    // SAFETY: pointer and length are those of a slice.
    let raw = unsafe { nfs3_check(store.as_ptr(), store.len()) };
    raw.into()
}

/// Formats a store.
pub fn format(plan: &Format, store: &mut [u8]) -> Answer {
    // SAFETY: pointer and length are those of a slice.
    let raw = unsafe {
        nfs3_format(
            store.as_mut_ptr(),
            store.len(),
            plan.stamp,
            plan.objects,
            plan.names,
            plan.blocks,
            plan.seconds,
            plan.nanoseconds,
        )
    };
    raw.into()
}

/// Converts an old image; the store is the target.
pub fn convert(old: &[u8], store: &mut [u8]) -> Answer {
    // SAFETY: the pointers and lengths are those of slices, which are never
    // null and, borrowed as they are, never overlap.
    let raw = unsafe { nfs3_convert(old.as_ptr(), old.len(), store.as_mut_ptr(), store.len()) };
    raw.into()
}

/// Whether the library with the MOUNT entry is there.
pub const HAS_MOUNT: bool = cfg!(mount3_library);

/// Says that it is not.
pub fn report_no_mount(program: &str) {
    eprintln!(
        "{program}: there is no library at {}; build it or set NFS3_LIBRARY to its folder",
        env!("MOUNT3_LIBRARY_FILE")
    );
}

#[cfg(mount3_library)]
extern "C" {
    fn mount3_call(
        call: *const u8,
        call_len: usize,
        store: *const u8,
        store_len: usize,
        table: *mut u8,
        table_len: usize,
        reply: *mut u8,
        reply_len: usize,
        host: u32,
    ) -> RawAnswer;
}

/// Answers one MOUNT call; the arguments are those of the peer's `mount`.
#[cfg(mount3_library)]
pub fn mount(mount: &Mount<'_>, store: &[u8], table: &mut [u8], reply: &mut [u8]) -> Answer {
    // SAFETY: the pointers and lengths are those of slices, which are never
    // null and, borrowed as they are, never overlap.
    let raw = unsafe {
        mount3_call(
            mount.bytes.as_ptr(),
            mount.bytes.len(),
            store.as_ptr(),
            store.len(),
            table.as_mut_ptr(),
            table.len(),
            reply.as_mut_ptr(),
            reply.len(),
            mount.host,
        )
    };
    raw.into()
}

/// Ends the program: there is nothing to call.
#[cfg(not(mount3_library))]
pub fn mount(_: &Mount<'_>, _: &[u8], _: &mut [u8], _: &mut [u8]) -> Answer {
    report_no_mount("MOUNT");
    std::process::exit(2)
}
