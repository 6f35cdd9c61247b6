//! Status, procedure and message numbers.

/// NFS version 3 status numbers (RFC 1813, section 2.6).
#[derive(Clone, Copy, PartialEq, Eq, Debug)]
pub struct Status(pub u32);

impl Status {
    pub const OK: Status = Status(0);
    pub const NOENT: Status = Status(2);
    pub const ACCES: Status = Status(13);
    pub const EXIST: Status = Status(17);
    pub const NOTDIR: Status = Status(20);
    pub const INVAL: Status = Status(22);
    pub const FBIG: Status = Status(27);
    pub const NOSPC: Status = Status(28);
    pub const MLINK: Status = Status(31);
    pub const NAMETOOLONG: Status = Status(63);
    pub const NOTEMPTY: Status = Status(66);
    pub const STALE: Status = Status(70);
    pub const BADHANDLE: Status = Status(10001);
    pub const NOT_SYNC: Status = Status(10002);
    pub const BAD_COOKIE: Status = Status(10003);
    pub const NOTSUPP: Status = Status(10004);
    pub const TOOSMALL: Status = Status(10005);
    /// Only MOUNT has it (RFC 1813, appendix I); its other statuses have the
    /// same numbers as here.
    pub const SERVERFAULT: Status = Status(10006);
}

/// NFS version 3 procedure numbers.
pub mod procedure {
    pub const NULL: u32 = 0;
    pub const GETATTR: u32 = 1;
    pub const SETATTR: u32 = 2;
    pub const LOOKUP: u32 = 3;
    pub const ACCESS: u32 = 4;
    pub const READLINK: u32 = 5;
    pub const READ: u32 = 6;
    pub const WRITE: u32 = 7;
    pub const CREATE: u32 = 8;
    pub const MKDIR: u32 = 9;
    pub const SYMLINK: u32 = 10;
    pub const MKNOD: u32 = 11;
    pub const REMOVE: u32 = 12;
    pub const RMDIR: u32 = 13;
    pub const RENAME: u32 = 14;
    pub const LINK: u32 = 15;
    pub const READDIR: u32 = 16;
    pub const READDIRPLUS: u32 = 17;
    pub const FSSTAT: u32 = 18;
    pub const FSINFO: u32 = 19;
    pub const PATHCONF: u32 = 20;
    pub const COMMIT: u32 = 21;
    /// The largest procedure number.
    pub const LAST: u32 = COMMIT;
}

/// MOUNT version 3 procedure numbers.
pub mod mount_procedure {
    pub const NULL: u32 = 0;
    pub const MNT: u32 = 1;
    pub const DUMP: u32 = 2;
    pub const UMNT: u32 = 3;
    pub const UMNTALL: u32 = 4;
    pub const EXPORT: u32 = 5;
    /// The largest procedure number.
    pub const LAST: u32 = EXPORT;
}

/// Zero words of a failure body without a live handle, by procedure number.
/// NULL has no failure body.
pub const ZERO_WORDS: [usize; 22] = [
    0, 0, 2, 1, 1, 1, 1, 2, 2, 2, 2, 2, 2, 2, 4, 3, 1, 1, 1, 1, 1, 2,
];

/// How an entry answers a call without a complete header.
pub mod refusal {
    /// Under 8 bytes.
    pub const NO_MESSAGE: u32 = 5;
    /// A message type other than 0.
    pub const NO_CALL: u32 = 7;
    /// A header cut short.
    pub const CUT_HEADER: u32 = 8;
    /// An overlong credential or verifier.
    pub const OVERLONG: u32 = 9;
}

/// Numbers of RPC messages (RFC 5531).
pub mod message {
    pub const CALL: u32 = 0;
    pub const REPLY: u32 = 1;
    pub const RPC_VERSION: u32 = 2;
    pub const ACCEPTED: u32 = 0;
    pub const DENIED: u32 = 1;
    pub const RPC_MISMATCH: u32 = 0;
    pub const SUCCESS: u32 = 0;
    pub const PROG_UNAVAIL: u32 = 1;
    pub const PROG_MISMATCH: u32 = 2;
    pub const PROC_UNAVAIL: u32 = 3;
    pub const GARBAGE_ARGS: u32 = 4;
    /// The NFS program, the MOUNT program, and the one version served of each.
    pub const PROGRAM: u32 = 100_003;
    pub const MOUNT_PROGRAM: u32 = 100_005;
    pub const VERSION: u32 = 3;
    /// The longest credential or verifier.
    pub const MAX_AUTH: usize = 400;
}
