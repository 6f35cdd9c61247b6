//! The rules of document 02 that the scripts must show.

use super::coverage::PROCEDURE_NAMES;
use super::padding::{ARGUMENTS, CREDENTIAL};
use crate::numbers::procedure;

/// The group of labels for them.
pub const GROUP: &str = "Rules of document 02";

/// The group of labels for the rules of request E4.
pub const SEARCH_GROUP: &str = "Rules of request E4";

/// The group of labels for the rules of request E5.
pub const MOUNT_GROUP: &str = "Rules of request E5";

/// The group of labels for the rules of request E6.
pub const PLACE_GROUP: &str = "Rules of request E6";

/// The group of labels for the rules of request E7.
pub const LINK_GROUP: &str = "Rules of request E7";

/// Gives each label its name, and lists them all.
macro_rules! labels {
    ($list:ident: $($name:ident = $label:literal;)*) => {
        $(pub const $name: &str = $label;)*
        pub const $list: &[&str] = &[$($name),*];
    };
}

labels! { LABELS:
    // A new file.
    NEW_FILE = "new: mode, ids and size 0, all times the clock";
    NEW_DIRECTORY = "new: the directory's times are set";
    TWO_NAMES = "new: one verifier under two names, two files";
    // A name that exists.
    TWICE = "sent twice: OK, the same handle, nothing changes";
    ZEROS = "a verifier of eight zeros is kept and matched";
    OTHER_VERIFIER = "another verifier: EXIST";
    ON_DIRECTORY = "a directory: EXIST";
    ON_GUARDED = "a file made GUARDED: EXIST, for eight zeros too";
    ON_UNCHECKED = "a file made UNCHECKED: EXIST, for eight zeros too";
    DOTS = "dots: EXIST";
    // The order of the tests.
    HANDLES_FIRST = "BADHANDLE and STALE first";
    NOTDIR = "NOTDIR before the name tests";
    NAMES = "name tests before what the name is";
    NO_OBJECT = "NOSPC: no object";
    NO_NAME = "NOSPC: no name";
    FULL_AGAIN = "sent twice on a full store: OK";
    // What forgets a verifier, and what does not.
    SETATTR_NOTHING = "SETATTR with nothing set forgets";
    SETATTR_OTHERS = "SETATTR with a mode or times forgets";
    SETATTR_SIZE = "SETATTR with a size forgets";
    SETATTR_REFUSED = "SETATTR refused keeps";
    UNCHECKED_PLAIN = "UNCHECKED without a size keeps";
    UNCHECKED_SIZE = "UNCHECKED with a size keeps";
    WRITE = "WRITE keeps";
    RENAME = "RENAME keeps, by the new name";
    REMOVE = "REMOVE, then a new object";
    // The check.
    ANY_VERIFIER = "check: flag 1 with any verifier, eight zeros too";
    FLAG_DIRECTORY = "check: flag 1 on a directory fails";
    FLAG_FREE = "check: flag 1 on a free record fails";
    FLAG_OTHER = "check: another flag fails";
    NO_FLAG = "check: a verifier without a flag fails";
    // The converter.
    CONVERTED = "convert: every byte of the target is written";
    SMALLEST = "convert: 100 bytes become 112";
    LARGEST = "convert: 535,060 bytes become 535,828";
    BAD_IMAGE = "convert: a bad old image, target untouched";
    CUT = "convert: a cut old image";
    LONGER = "convert: an old image with bytes left over";
    NEW_AS_OLD = "convert: a store is no old image";
    TARGET_SHORT = "convert: target too short, untouched";
    TARGET_LONG = "convert: target too long, untouched";
    ONE_BEFORE_SIX = "convert: 1 before 6";
    HANDLES_STAY = "convert: handles from before go on working";
    NOTHING_KEPT = "convert: a converted file keeps no verifier";
    // Pad bytes of calls.
    PADS_EVERYWHERE = "padding: at every place of a call at once";
    PADS_COMPLETE_HANDLE = "padding: the rest of a handle, still BADHANDLE";
    PADS_COMPLETE_NAME = "padding: the rest of another name, the name as sent counts";
    PADS_DOTS = "padding: dots stay dots";
    PADS_STORED_NAME = "padding: a stored name has zeros behind it";
    PADS_LISTED = "padding: a listed name has zeros behind it";
    PADS_READ = "padding: READ gives the data as written, zeros behind it";
    PADS_GROWTH = "padding: growth behind the data reads zero";
    PADS_BEHIND = "padding: bytes of the file behind the data stay";
    PADS_LEFT_OVER = "padding: bytes left over behind it, GARBAGE_ARGS";
    PADS_LATER_FAULT = "padding: a later field that cannot be read, GARBAGE_ARGS";
    PADS_LONG_HANDLE = "padding: a handle over 64 bytes, GARBAGE_ARGS";
    PADS_LONG_HEADER = "padding: a credential or verifier over 400 bytes, answer 5";
    PADS_DENIED = "padding: another RPC version is denied, whole or cut";
    PADS_PROGRAM = "padding: another program";
    PADS_VERSION = "padding: another version of the program";
    PADS_PROCEDURE = "padding: a procedure over 21";
    PADS_UNREAD = "padding: NOTSUPP, arguments unread, whole or cut";
    PADS_IN_STORE = "padding: a store's must be zero";
    PADS_IN_OLD_IMAGE = "padding: an old image's must be zero";
    // RENAME over a file.
    OVER_FILE = "rename: file over file, one directory";
    OVER_FILE_ELSEWHERE = "rename: file over file, two directories";
    OVER_LATER_RECORD = "rename: the target's name record after the moved one's";
    OVER_EARLIER_RECORD = "rename: the target's name record before the moved one's";
    OVER_LATER_OBJECT = "rename: the target's object after the moved one";
    OVER_EARLIER_OBJECT = "rename: the target's object before the moved one";
    OVER_LARGER = "rename: over a larger file";
    OVER_SMALLER = "rename: over a smaller file";
    OVER_EQUAL = "rename: over a file of the same size";
    OVER_EMPTY = "rename: over an empty file";
    OVER_BY_EMPTY = "rename: an empty file over one with bytes";
    OVER_TAIL = "rename: bytes behind the target's end are zeroed with their block";
    OVER_FREE_BLOCKS = "rename: bytes of other free blocks stay";
    OVER_MOVED_VERIFIER = "rename: the moved file keeps its verifier";
    OVER_TARGET_VERIFIER = "rename: the target's verifier is gone";
    OVER_SENT_AGAIN = "rename: sent again after success, NOENT";
    // RENAME over a directory.
    OVER_DIRECTORY = "rename: directory over an empty one, one directory";
    OVER_DIRECTORY_ELSEWHERE = "rename: directory over an empty one, two directories";
    OVER_BY_FULL = "rename: a directory that is not empty over an empty one";
    OVER_DOT_DOT = "rename: the dots of the moved directory lead to the second one";
    OVER_LINKS = "rename: one directory has a subdirectory less";
    OVER_LINKS_ELSEWHERE = "rename: the first directory has a subdirectory less, the second as many";
    OVER_EMPTIED = "rename: over a directory that was emptied";
    OVER_DEEP = "rename: over an empty directory at the deepest place";
    // Targets that stay.
    OVER_FULL = "rename: directory over one that is not empty, EXIST";
    OVER_PARENT = "rename: over the directory that holds it, EXIST";
    OVER_ABOVE = "rename: over a directory farther above it, EXIST";
    FILE_OVER_DIRECTORY = "rename: file over directory, empty or not, EXIST";
    DIRECTORY_OVER_FILE = "rename: directory over file, EXIST";
    // The same object.
    SAME_FILE = "rename: a file onto itself, OK, nothing changes";
    SAME_DIRECTORY = "rename: an empty directory onto itself, OK, nothing changes";
    SAME_FULL = "rename: a directory that is not empty onto itself, OK, nothing changes";
    SAME_WITHOUT_ROOM = "rename: onto itself in a full store, OK";
    // A directory into itself or below.
    BELOW_DIRECTORY = "rename: below itself onto an empty directory, INVAL";
    BELOW_FULL = "rename: below itself onto a directory that is not empty, INVAL";
    BELOW_FILE = "rename: below itself onto a file, INVAL";
    BELOW_ITSELF = "rename: into itself onto a name in it, INVAL";
    BELOW_DEEP = "rename: far below itself onto a name there, INVAL";
    // The order of the tests.
    RENAME_HANDLES = "rename: both handles and NOTDIR before the names";
    RENAME_NAMES = "rename: both name tests before the dots";
    RENAME_DOTS = "rename: dots before NOENT and the target";
    RENAME_NOENT = "rename: NOENT before the target";
    // The room of a target.
    OVER_NO_OBJECT = "rename: replacing without a free object";
    OVER_NO_NAME = "rename: replacing without a free name";
    OVER_NO_BLOCK = "rename: replacing without a free block";
    OVER_FREED_OBJECT = "rename: the freed object is taken when it is the lowest";
    OVER_FREED_NAME = "rename: the freed name record is taken when it is the lowest";
    OVER_FREED_BLOCKS = "rename: the freed blocks are taken when they are the lowest";
    OVER_LOWER_FIRST = "rename: lower free ones are taken before the freed ones";
    OVER_LARGEST = "rename: replacing in the largest store";
    // The target's handle, and the moved one's.
    OVER_REUSED = "rename: the target's record used again has the next generation";
    OVER_SPENT = "rename: a target of the last generation, its record is not available";
    OVER_MOVED_HANDLE = "rename: the moved object's handle stays good, with its bytes";
    // Times.
    OVER_CLOCK = "rename: times from the clock of the call, earlier ones too";
}

// The rules of request E4, which the searches must show.
labels! { SEARCH_LABELS:
    // What one record costs.
    LENGTHS_FIRST = "lengths differ: 0 pairs";
    PREFIX = "one name begins with the other: 0 pairs";
    LEADING_ZERO = "with and without a leading zero: 0 pairs";
    FIRST_BYTE = "first bytes differ: 1 pair";
    INNER_BYTE = "stops at the first pair that differs, later ones too";
    LAST_BYTE = "last bytes differ: that pair counts, so the whole length";
    WHOLE_NAME = "the match counts with its whole name";
    ONE_BYTE = "names of 1 byte";
    LONGEST = "names of 32 bytes";
    // Which records cost something.
    NO_RECORD = "a directory without names: 0 pairs";
    BEFORE_MATCH = "all records of the directory before the match count";
    AFTER_MATCH = "records after the match cost nothing";
    NO_MATCH = "without a match all records of the directory count";
    OTHER_DIRECTORIES = "records of other directories cost 0";
    SAME_NAME = "the same name in another directory: not found, 0 pairs";
    FREE_RECORDS = "free records cost 0, after REMOVE";
    FREED_TARGET = "free records cost 0, after RENAME over a name";
    MOVED_RECORD = "RENAME: the record counts in its new directory, not in the old one";
    USED_AGAIN = "a free record used again counts in its place";
    FULL_STORE = "a store without a free object or name";
    LARGEST_STORE = "the largest store";
    // Names and numbers that are in no record.
    DOTS_NO_RECORD = "dots are in no record";
    DOTS_NOT_SEARCHED = "LOOKUP answers dots, which no search finds";
    EMPTY_NAME = "an empty name: 0 pairs, beside free records too";
    LONG_NAME = "a name over 32 bytes: 0 pairs";
    FILE_NUMBER = "the number of a file: 0 pairs";
    FREE_NUMBER = "the number of a free object: 0 pairs";
    BEYOND = "a number beyond the objects: 0 pairs";
    // The procedures, whose answers are as before.
    LOOKUP_FINDS = "LOOKUP answers the child of the record that is found";
    LOOKUP_MISSES = "LOOKUP answers NOENT where none is found";
    CREATE_FINDS = "CREATE: EXIST where a record is found, else made";
    MKDIR_FINDS = "MKDIR: EXIST where a record is found, else made";
    REMOVE_FINDS = "REMOVE: the record that is found becomes free, else NOENT";
    RMDIR_FINDS = "RMDIR: the record that is found becomes free, else NOENT";
    RENAME_FINDS = "RENAME: the record that is found moves, else NOENT";
    NOTHING_CHANGES = "a search changes nothing in the store";
}

/// Every label of request E4.
pub fn searches() -> &'static [&'static str] {
    SEARCH_LABELS
}

/// The procedures that take a handle, but for those that are not served.
const WITH_HANDLE: [u32; 17] = [
    procedure::GETATTR,
    procedure::SETATTR,
    procedure::LOOKUP,
    procedure::ACCESS,
    procedure::READ,
    procedure::WRITE,
    procedure::CREATE,
    procedure::MKDIR,
    procedure::REMOVE,
    procedure::RMDIR,
    procedure::RENAME,
    procedure::LINK,
    procedure::READDIR,
    procedure::FSSTAT,
    procedure::FSINFO,
    procedure::PATHCONF,
    procedure::COMMIT,
];

/// The label for a call with the handle of a replaced object, before or after
/// its record is used again.
pub fn replaced_handle(number: u32, directory: bool, reused: bool) -> String {
    let kind = if directory { "directory" } else { "file" };
    let state = if reused { "used again" } else { "free" };
    let name = PROCEDURE_NAMES[number as usize];
    format!("rename: handle of a replaced {kind}, record {state}: {name} STALE")
}

/// How a call ends whose pad bytes are not zero.
#[derive(Clone, Copy, PartialEq, Eq, Debug)]
pub enum End {
    Done,
    Refused,
    /// It is cut inside the padding.
    Cut,
}

/// The padded fields in the arguments of a procedure, in their order.
fn padded_fields(number: u32) -> &'static [&'static str] {
    match number {
        procedure::NULL
        | procedure::READLINK
        | procedure::SYMLINK
        | procedure::MKNOD
        | procedure::READDIRPLUS => &[],
        procedure::LOOKUP
        | procedure::CREATE
        | procedure::MKDIR
        | procedure::REMOVE
        | procedure::RMDIR => &["handle", "name"],
        procedure::WRITE => &["handle", "data"],
        procedure::RENAME => &["first handle", "first name", "second handle", "second name"],
        procedure::LINK => &["file's handle", "directory's handle", "name"],
        _ => &["handle"],
    }
}

/// The label for so many pad bytes at a place of a call.
pub fn padding(number: u32, place: usize, count: usize, end: End) -> String {
    let field = match place.checked_sub(ARGUMENTS) {
        Some(at) => {
            let field = padded_fields(number)[at];
            format!("{} {field}", PROCEDURE_NAMES[number as usize])
        }
        None if place == CREDENTIAL => "credential".to_owned(),
        None => "verifier".to_owned(),
    };
    let end = match end {
        End::Done => "OK",
        End::Refused => "refused",
        End::Cut => "cut",
    };
    format!("padding of {count}: {field}, {end}")
}

/// Every label of the requests E1, E2 and E3. A handle that has padding is never
/// a good one.
pub fn all() -> Vec<String> {
    let mut labels: Vec<String> = LABELS.iter().map(|&label| label.to_owned()).collect();
    for count in 1..=3 {
        let mut add = |number: u32, place: usize, ends: &[End]| {
            labels.extend(ends.iter().map(|&end| padding(number, place, count, end)));
        };
        for place in 0..ARGUMENTS {
            add(procedure::NULL, place, &[End::Done, End::Refused, End::Cut]);
        }
        for number in 0..=procedure::LAST {
            for (at, field) in padded_fields(number).iter().enumerate() {
                let ends = [End::Refused, End::Cut, End::Done];
                let possible = if field.ends_with("handle") { 2 } else { 3 };
                add(number, ARGUMENTS + at, &ends[..possible]);
            }
        }
    }
    for number in WITH_HANDLE {
        for (directory, reused) in [(false, false), (false, true), (true, false), (true, true)] {
            labels.push(replaced_handle(number, directory, reused));
        }
    }
    labels
}

/// The rules of request E7, which the vector file must show.
pub mod link {
    labels! { LABELS:
        // A further name.
        SAME_DIRECTORY = "link: a further name in a directory that has one";
        OTHER_DIRECTORY = "link: a further name in another directory";
        SAME_TEXT = "link: the same name in another directory";
        ANY_TEXT = "link: names of 1 to 32 bytes of any value";
        LOWEST_RECORD = "link: the lowest free name record is taken";
        UP_TO_16 = "link: one name after the other up to 16";
        SEVENTEENTH = "link: the 17th name, MLINK";
        AFTER_MLINK = "link: after MLINK and a REMOVE a name is free again";
        COUNTED = "link: nlink is the number of names, in every reply";
        CLOCKS = "link: times from the clock of the call, earlier ones too";
        ANY_NAME = "link: LOOKUP of each name gives the same handle and attributes";
        ANY_HANDLE = "link: READ, WRITE and SETATTR act on the file, whichever name is looked up";
        UNCHECKED = "link: UNCHECKED CREATE of any name with a size cuts the file";
        GUARDED = "link: GUARDED CREATE, MKDIR and LINK of a further name, EXIST";
        // Removal.
        ONE_REMOVED = "remove: one of several names, the file stays with its bytes";
        LAST_REMOVED = "remove: the last name frees the file and its blocks";
        EVERY_ORDER = "remove: three names in every order";
        FREED_RECORD = "remove: the freed name record is taken by the next LINK";
        STALE = "remove: after the last name the handle is STALE, also as LINK's file";
        RMDIR = "remove: RMDIR of a name of a file, NOTDIR; a directory with a link, NOTEMPTY";
        // RENAME.
        ONE_MOVED = "rename: one of several names moves, the others stay";
        OVER_ONE = "rename: over one of several names, that file stays, its ctime is set";
        OVER_LAST = "rename: over the last name of a file that had several";
        BY_LINKED = "rename: one of several names over a file with one name";
        LINKED_BOTH = "rename: one of several names over one of several of another file";
        TWO_NAMES = "rename: between two names of one file, one directory, nothing changes";
        TWO_DIRECTORIES = "rename: between two names of one file, two directories, nothing changes";
        ONTO_ITSELF = "rename: one of several names onto itself, nothing changes";
        ON_DIRECTORY = "rename: one of several names over a directory, EXIST, and the other way";
        // Kept verifiers.
        KEPT_BY_EACH = "verifier: EXCLUSIVE again by each name, OK, nothing changes";
        KEPT_OTHER = "verifier: another one by each name, EXIST";
        KEPT_LINK = "verifier: LINK keeps it";
        KEPT_REMOVE = "verifier: REMOVE of one of several names keeps it";
        KEPT_OVER = "verifier: RENAME over one of several names keeps it";
        FORGOTTEN = "verifier: SETATTR forgets it for every name";
        NONE_KEPT = "verifier: a linked file without one, EXIST by each name";
        // Room.
        NO_NAME = "room: LINK without a free name, objects free, NOSPC";
        NO_OBJECT = "room: LINK without a free object, OK";
        MAKE_NO_NAME = "room: CREATE and MKDIR without a free name, objects free, NOSPC";
        MAKE_NO_OBJECT = "room: CREATE and MKDIR without a free object, names free, NOSPC";
        FULL = "room: 64 objects with 128 used names";
        FSSTAT = "room: LINK and REMOVE of one of several names leave FSSTAT's numbers";
        BLOCKS_ONCE = "room: the blocks of a linked file count once";
        // Listings.
        CUT = "readdir: 128 names of 32 bytes, cut at 4,096";
        RESUMED = "readdir: resumed by its cookies until eof, each name once";
        BETWEEN = "readdir: LINK, REMOVE and RENAME between two parts";
        LISTED_TWICE = "readdir: two names of one file have the same file number";
        // The check.
        CHECK_16 = "check: a file with 16 names";
        CHECK_17 = "check: a file with 17 names fails";
        CHECK_NONE = "check: a file without a name fails, beside linked ones";
        CHECK_DIRECTORY = "check: a directory with two names fails";
        CHECK_ROOT = "check: a name of the root fails";
        CHECK_FREE = "check: a name of a free object fails";
        CHECK_EQUAL = "check: two equal names of one file in one directory fail";
        CHECK_APART = "check: equal names of one file in two directories";
        CHECK_PARENTS = "check: a ring of directories with linked files in it fails";
        DOT_DOT = "check: .. of a directory is its parent, with linked files around it";
        // Old images.
        CONVERT_TWO = "convert: a file with two names, 1";
        CONVERT_16 = "convert: a file with 16 names, 1";
        CONVERT_LINKED = "convert: a converted file can be linked";
        CONVERT_FIRST = "convert: no object free, the first file with two names, 1";
        CONVERT_MIDDLE = "convert: no object free, a middle file with two names, 1";
        CONVERT_LAST = "convert: no object free, the last object with two names, 1";
        CONVERT_EITHER = "convert: no object free, either of the two names alone, 0";
        // Numbers.
        LINKMAX = "PATHCONF: linkmax 16";
        PROPERTIES = "FSINFO: properties 0x19";
    }

    /// What can be wrong with a LINK, in the order of its tests.
    #[derive(Clone, Copy, PartialEq, Eq, PartialOrd, Ord, Debug)]
    pub enum Fault {
        BadFile,
        StaleFile,
        Directory,
        BadDirectory,
        StaleDirectory,
        NotDirectory,
        Empty,
        TooLong,
        BadByte,
        Dots,
        Exists,
        Many,
        NoName,
    }

    impl Fault {
        const ALL: [(Fault, &'static str); 13] = [
            (Fault::BadFile, "file's BADHANDLE"),
            (Fault::StaleFile, "file's STALE"),
            (Fault::Directory, "INVAL"),
            (Fault::BadDirectory, "directory's BADHANDLE"),
            (Fault::StaleDirectory, "directory's STALE"),
            (Fault::NotDirectory, "NOTDIR"),
            (Fault::Empty, "ACCES of an empty name"),
            (Fault::TooLong, "NAMETOOLONG"),
            (Fault::BadByte, "ACCES of a byte"),
            (Fault::Dots, "EXIST of dots"),
            (Fault::Exists, "EXIST"),
            (Fault::Many, "MLINK"),
            (Fault::NoName, "NOSPC"),
        ];

        fn name(self) -> &'static str {
            Fault::ALL[self as usize].1
        }

        /// Which argument the fault is in: the file, the directory, the name;
        /// the room is in none.
        fn part(self) -> u32 {
            match self {
                Fault::BadFile | Fault::StaleFile | Fault::Directory | Fault::Many => 0,
                Fault::BadDirectory | Fault::StaleDirectory | Fault::NotDirectory => 1,
                Fault::Empty | Fault::TooLong | Fault::BadByte | Fault::Dots | Fault::Exists => 2,
                Fault::NoName => 3,
            }
        }

        /// Whether a call can have both faults.
        fn goes_with(self, later: Fault) -> bool {
            let in_directory = later == Fault::Exists && self.part() == 1;
            self.part() != later.part() && !in_directory
                || self == Fault::TooLong && later == Fault::BadByte
        }
    }

    /// The label for a fault alone.
    pub fn alone(fault: Fault) -> String {
        format!("link: {}", fault.name())
    }

    /// The label for a fault that decides before another one.
    pub fn before(first: Fault, later: Fault) -> Option<String> {
        (first < later && first.goes_with(later))
            .then(|| format!("link: {} before {}", first.name(), later.name()))
    }

    /// The label for a failure body, by the handles that are live.
    pub fn body(file: bool, directory: bool) -> String {
        let present = |live: bool| if live { "there" } else { "absent" };
        format!(
            "link: failure body, file's attributes {}, directory's {}",
            present(file),
            present(directory)
        )
    }

    /// The label for a failure body whose handles are of these objects.
    pub const BODY_SAME_FILE: &str = "link: failure body, one file's handle twice";
    pub const BODY_SAME_DIRECTORY: &str = "link: failure body, one directory's handle twice";
    pub const BODY_EXCHANGED: &str = "link: failure body, a directory's and a file's handle";

    /// Every label.
    pub fn all() -> Vec<String> {
        let mut labels: Vec<String> = LABELS.iter().map(|&label| label.to_owned()).collect();
        for (first, _) in Fault::ALL {
            labels.push(alone(first));
            labels.extend(
                Fault::ALL
                    .iter()
                    .filter_map(|(later, _)| before(first, *later)),
            );
        }
        for file in [false, true] {
            labels.extend([false, true].map(|directory| body(file, directory)));
        }
        labels.extend([BODY_SAME_FILE, BODY_SAME_DIRECTORY, BODY_EXCHANGED].map(str::to_owned));
        labels
    }
}

/// The rules of request E5, which the file of mounts must show.
pub mod mount {
    use crate::generator::mounts::counts::{ANSWERS, PROCEDURE_NAMES};
    use crate::numbers::mount_procedure;

    labels! { LABELS:
        // The entry.
        SPACE = "entry: 33,692 bytes of reply space are enough, 33,691 are not";
        LONGEST_CALL = "entry: a call of 8,192 bytes is read, one of 8,193 is not";
        REFUSED = "entry: a refusal has length 0 and changes no byte";
        SPARE = "entry: bytes of the reply space past the reply stay";
        STORE_STAYS = "entry: no MOUNT call changes the store";
        CUT_HEADER = "entry: answers 5 and 8 for a header cut at any byte";
        NO_CALL = "entry: answer 7 for a message type other than 0";
        DAMAGED_STORE = "entry: answer 1 for damaged stores";
        // RPC outcomes, in their order.
        DENIED = "rpc: another RPC version is denied";
        DENIED_FIRST = "rpc: another RPC version before another program, with 12 bytes too";
        NFS_PROGRAM = "rpc: program 100003 at this entry, PROG_UNAVAIL";
        MOUNT_AT_NFS = "rpc: program 100005 at the NFS entry, PROG_UNAVAIL";
        OTHER_PROGRAM = "rpc: any other program, PROG_UNAVAIL";
        PROGRAM_FIRST = "rpc: another program before another version";
        VERSION_FIRST = "rpc: another version before a procedure over 5";
        PROCEDURE_FIRST = "rpc: a procedure over 5 before its arguments";
        ARGUMENTS_FIRST = "rpc: GARBAGE_ARGS before any status";
        ANY_FLAVOR = "rpc: credential and verifier of any flavor";
        LONGEST_AUTH = "rpc: a credential or verifier of 400 bytes is read, 401 are answer 9";
        // Reading a path.
        LENGTH_CUT = "path: longer than the call, GARBAGE_ARGS";
        LENGTH_MISSING = "path: no length, or a length cut short, GARBAGE_ARGS";
        // What MNT answers.
        ROOT = "MNT: \"/\", \"//\" and more slashes are the root";
        REPLY = "MNT: OK, the handle of 12 bytes, flavors 0 and 1: 56 bytes";
        FAILURE = "MNT: a failure is the status alone: 28 bytes, and the table stays";
        EMPTY_PATH = "MNT: an empty path, INVAL";
        NO_SLASH = "MNT: a path that does not start with a slash, INVAL";
        // Components.
        FOUND = "MNT: components one after the other";
        EMPTY_COMPONENTS = "MNT: empty components are passed over, everywhere";
        TRAILING = "MNT: slashes at the end";
        DOT = "MNT: \".\" is the directory itself";
        DOT_DOT = "MNT: \"..\" is the directory above";
        ABOVE_ROOT = "MNT: \"..\" of the root is the root";
        DOTS_OF_NOTHING = "MNT: a missing name before \"..\", NOENT";
        LIKE_DOTS = "MNT: \"...\" is a name like any other";
        NAME_32 = "MNT: a name of 32 bytes is found";
        NAME_33 = "MNT: a name of 33 bytes, NAMETOOLONG";
        ZERO_BYTE = "MNT: a name with a zero byte, ACCES";
        LONG_WITH_ZERO = "MNT: a name of 33 bytes with a zero byte, NAMETOOLONG";
        MISSING = "MNT: a missing name, NOENT";
        PREFIX = "MNT: the beginning of a name, NOENT";
        OTHER_DIRECTORY = "MNT: a name of another directory, NOENT";
        DEEPEST = "MNT: 63 components deep, and back up";
        ANY_BYTES = "MNT: names of any other bytes";
        // Files.
        FILE = "MNT: \"/file\", NOTDIR";
        FILE_SLASH = "MNT: \"/file/\", NOTDIR";
        FILE_DOT = "MNT: \"/file/.\", NOTDIR";
        FILE_DOT_DOT = "MNT: \"/file/..\", NOTDIR";
        FILE_NAME = "MNT: \"/file/x\", NOTDIR";
        FILE_LONG = "MNT: a file before a name of 33 bytes or with a zero byte, NOTDIR";
        // Files with several names.
        LINKED_END = "MNT: a path that ends in a file with several names, by each of them, NOTDIR";
        LINKED_INSIDE = "MNT: a file with several names before the end, NOTDIR";
        LINKED_THROUGH = "MNT: through directories that hold names of one file";
        LINKED_REMOVED = "MNT: after REMOVE of one of several names, NOENT by it, NOTDIR by the others";
        LINKED_REPLACED = "MNT: after RENAME of a directory to a name that a file had";
        // The first failing component decides.
        MISSING_FIRST = "MNT: NOENT before a later NAMETOOLONG, ACCES or NOENT";
        LONG_FIRST = "MNT: NAMETOOLONG before a later ACCES or NOENT";
        ZERO_FIRST = "MNT: ACCES before a later NAMETOOLONG or NOENT";
        FILE_FIRST = "MNT: NOTDIR before what follows the file";
        INVAL_FIRST = "MNT: INVAL before anything of the components";
        // The table.
        ADDED = "MNT: the pair goes into the lowest free row, zeros behind the path";
        AS_SENT = "MNT: the path is kept as sent";
        THERE = "MNT: a pair that is there is not added again";
        THERE_FULL = "MNT: a pair that is there in a full table, OK";
        FULL = "MNT: another pair in a full table, SERVERFAULT";
        FULL_LAST = "MNT: the last free row is taken";
        FULL_INVAL = "MNT: full table, INVAL first";
        FULL_NOENT = "MNT: full table, NOENT first";
        FULL_ACCES = "MNT: full table, ACCES first";
        FULL_LONG = "MNT: full table, NAMETOOLONG first";
        FULL_NOTDIR = "MNT: full table, NOTDIR first, inside the path and at its end";
        THERE_GONE = "MNT: a pair that is there but fails now has the failure's status";
        MIDDLE = "MNT: a row that became free in the middle is taken first";
        OTHER_HOST = "MNT: the same path from another host is another pair";
        OTHER_PATH = "MNT: paths to one directory that differ as sent are two pairs";
        ANY_HOST = "MNT: host 0 is a host like any other";
        // The store between calls.
        AFTER_CREATE = "MNT: after MKDIR and CREATE of names on the path";
        AFTER_REMOVE = "MNT: after REMOVE of a name on the path";
        AFTER_RMDIR = "MNT: after RMDIR and MKDIR, the handle of the new directory";
        AFTER_RENAME = "MNT: after RENAME of names on the path, the same handle";
        AFTER_RENAME_OVER = "MNT: after RENAME over a directory on the path";
        // UMNT and UMNTALL.
        STRUCK = "UMNT: the pair's row becomes zero, the others stay where they are";
        NOT_THERE = "UMNT: a pair that is not there, nothing changes";
        OTHERS_PAIR = "UMNT: the same path of another host stays";
        OTHER_SPELLING = "UMNT: another path to the same directory stays";
        GONE = "UMNT: a path that exists no longer is struck";
        NEVER = "UMNT: a path that never existed, or has no slash, or is empty";
        UMNT_REPLY = "UMNT: always OK, 24 bytes";
        ALL_NONE = "UMNTALL: a host without rows, nothing changes";
        ALL_SOME = "UMNTALL: some rows, the others stay where they are";
        ALL_ROWS = "UMNTALL: all rows, the table becomes zero";
        UMNTALL_REPLY = "UMNTALL: always OK, 24 bytes";
        // Lists.
        DUMP_EMPTY = "DUMP: an empty table, 28 bytes";
        DUMP_MIXED = "DUMP: used rows in the order of their numbers";
        DUMP_FULL = "DUMP: a full table with the longest hosts and paths, 33,692 bytes";
        DUMP_STRANGE = "DUMP: paths that exist no longer, or of any bytes, as they are";
        DUMP_STAYS = "DUMP: the table stays";
        EXPORT = "EXPORT: words 1, 1, 2F000000, 0, 0";
        NULL = "NULL: 24 bytes, the table stays";
        // Good tables.
        GOOD_LONGEST = "table: a path of 1,024 bytes is good";
        GOOD_SHORTEST = "table: a path of one slash is good";
        GOOD_BYTES = "table: any bytes inside a path are good, zeros at its end too";
        GOOD_HOSTS = "table: one path with two hosts is good";
        GOOD_PREFIX = "table: paths of which one begins with the other are good";
        GOOD_LAST_BYTE = "table: 32 paths of 1,024 bytes that differ in the last byte are good";
        GOOD_FIRST_BYTE = "table: 32 paths of 1,024 bytes that differ in the second byte are good";
        GOOD_GAPS = "table: free rows between used ones are good";
        // Damaged tables, answer 12.
        BAD_FREE_HOST = "table: a host in a free row, each of its four bytes";
        BAD_FREE_PATH = "table: a byte in a free row's path, first, middle or last";
        BAD_BEHIND = "table: a byte right behind a path";
        BAD_LAST = "table: a byte at the end of a used row";
        BAD_EVERY_PLACE = "table: a byte at each of the 32 places behind a path's end";
        BAD_LENGTH = "table: a path length of 1,025";
        BAD_HUGE = "table: a path length of 4,294,967,295, and others over 1,024";
        BAD_SLASH = "table: a path without a slash at its start";
        BAD_ZERO_PATH = "table: a path that starts with a zero byte";
        BAD_NEIGHBOURS = "table: a pair twice in neighbouring rows";
        BAD_ENDS = "table: a pair twice, in the first and the last row";
        BAD_LONG_TWICE = "table: a pair twice with a path of 1,024 bytes among 31 others";
        BAD_ZERO_HOST = "table: a pair of host 0 twice";
        BAD_SIZE = "table: another length, 0 to 33,056 bytes";
        BAD_FOR_ALL = "table: answer 12 for every procedure";
    }

    /// Whether these refusals can be due at once. A call has one fault of the
    /// header; one that is too long is not under 8 bytes, and its header, which
    /// has at most 840 bytes, is not cut.
    pub fn possible(refusals: &[u32]) -> bool {
        let has = |number: &u32| refusals.contains(number);
        [5, 7, 8, 9].iter().filter(|&number| has(number)).count() <= 1
            && !(has(&4) && (has(&5) || has(&8)))
    }

    /// The label for two refusals that are due at once.
    pub fn refusal(first: u32, second: u32) -> String {
        format!("entry: answer {first} before {second}")
    }

    /// The versions that are not served.
    pub const VERSIONS: [u32; 6] = [0, 1, 2, 4, 0x0300_0000, u32::MAX];

    pub fn version(version: u32) -> String {
        format!("rpc: version {version}, PROG_MISMATCH 3 3")
    }

    /// The procedures that there are not.
    pub const BEYOND: [u32; 6] = [6, 7, 21, 22, 0x0100_0000, u32::MAX];

    pub fn beyond(procedure: u32) -> String {
        format!("rpc: procedure {procedure}, PROC_UNAVAIL")
    }

    /// How many bytes are left over behind the arguments.
    pub const LEFT_OVER: [usize; 4] = [1, 3, 4, 8];

    pub fn left_over(procedure: u32, count: usize) -> String {
        let name = PROCEDURE_NAMES[procedure as usize];
        format!("{name}: {count} bytes left over, GARBAGE_ARGS")
    }

    /// The procedures that take a path.
    pub const WITH_PATH: [u32; 2] = [mount_procedure::MNT, mount_procedure::UMNT];
    /// Lengths of paths at the limit.
    pub const LENGTHS: [u32; 4] = [1023, 1024, 1025, u32::MAX];

    pub fn length(procedure: u32, length: u32) -> String {
        let name = PROCEDURE_NAMES[procedure as usize];
        let outcome = if length > 1024 {
            "GARBAGE_ARGS"
        } else {
            "read"
        };
        format!("{name}: a path of {length} bytes, {outcome}")
    }

    /// The padded fields of a call.
    pub const FIELDS: [&str; 3] = ["credential", "verifier", "path"];

    pub fn padding(procedure: u32, field: &str, count: usize, cut: bool) -> String {
        let name = PROCEDURE_NAMES[procedure as usize];
        let state = if cut { "cut" } else { "not zero" };
        format!("{name}: padding of {count} behind the {field}, {state}")
    }

    /// Hosts that are listed.
    pub const HOSTS: [u32; 5] = [0, u32::MAX, 0xC000_0201, 0x0A00_0001, 0x0102_0304];

    pub fn host(host: u32) -> String {
        format!("DUMP: host {host:#010X} as dotted decimal")
    }

    pub fn remainder(remainder: usize) -> String {
        format!("DUMP: a path whose length is {remainder} modulo 4")
    }

    /// Every label of request E5.
    pub fn all() -> Vec<String> {
        let mut labels: Vec<String> = LABELS.iter().map(|&label| label.to_owned()).collect();
        let refusals = &ANSWERS[..ANSWERS.len() - 1];
        for (at, &first) in refusals.iter().enumerate() {
            let later = refusals[at + 1..].iter();
            let later = later.filter(|&&second| possible(&[first, second]));
            labels.extend(later.map(|&second| refusal(first, second)));
        }
        labels.extend(VERSIONS.map(version));
        labels.extend(BEYOND.map(beyond));
        for number in 0..=mount_procedure::LAST {
            labels.extend(LEFT_OVER.map(|count| left_over(number, count)));
        }
        for number in WITH_PATH {
            labels.extend(LENGTHS.map(|bytes| length(number, bytes)));
            for field in FIELDS {
                for count in 1..=3 {
                    labels.extend([false, true].map(|cut| padding(number, field, count, cut)));
                }
            }
        }
        labels.extend(HOSTS.map(host));
        labels.extend([0, 1, 2, 3].map(remainder));
        labels
    }
}

/// The rules of request E6, which the vector file and the file of mounts must
/// show, each for its entry.
pub mod place {
    use super::mount::possible;
    use crate::generator::coverage::PROCEDURE_NAMES;
    use crate::numbers::{mount_procedure, procedure};

    /// What an item is.
    #[derive(Clone, Copy, PartialEq, Eq, Debug)]
    pub enum Sort {
        /// A number, or an opaque item of fixed length: any value is good.
        Plain,
        Boolean,
        /// An enum or discriminant with the values 0, 1 and 2.
        Enum,
        /// A credential or a verifier.
        Auth,
        Handle,
        /// A name or data.
        Text,
        Path,
    }

    /// Arguments of a procedure with all optional parts: the items in their
    /// order.
    #[derive(Clone, Copy, Debug)]
    pub struct Form {
        pub name: &'static str,
        pub procedure: u32,
        pub items: &'static [(&'static str, Sort)],
    }

    const fn form(
        name: &'static str,
        procedure: u32,
        items: &'static [(&'static str, Sort)],
    ) -> Form {
        Form {
            name,
            procedure,
            items,
        }
    }

    const OBJECT: &[(&str, Sort)] = &[("handle", Sort::Handle)];
    const NAMED: &[(&str, Sort)] = &[("handle", Sort::Handle), ("name", Sort::Text)];
    const RANGE: &[(&str, Sort)] = &[
        ("handle", Sort::Handle),
        ("offset", Sort::Plain),
        ("count", Sort::Plain),
    ];

    /// A list of items with those of all attributes in the middle.
    macro_rules! with_attributes {
        ([$($before:expr),*], [$($after:expr),*]) => {
            &[
                $($before,)*
                ("set mode", Sort::Boolean),
                ("mode", Sort::Plain),
                ("set uid", Sort::Boolean),
                ("uid", Sort::Plain),
                ("set gid", Sort::Boolean),
                ("gid", Sort::Plain),
                ("set size", Sort::Boolean),
                ("size", Sort::Plain),
                ("set atime", Sort::Enum),
                ("atime's seconds", Sort::Plain),
                ("atime's nanoseconds", Sort::Plain),
                ("set mtime", Sort::Enum),
                ("mtime's seconds", Sort::Plain),
                ("mtime's nanoseconds", Sort::Plain),
                $($after,)*
            ]
        };
    }

    const MADE: &[(&str, Sort)] = with_attributes!(
        [
            ("handle", Sort::Handle),
            ("name", Sort::Text),
            ("manner", Sort::Enum)
        ],
        []
    );

    /// The forms of the served NFS procedures.
    pub const NFS_FORMS: [Form; 20] = [
        form("NULL", procedure::NULL, &[]),
        form("GETATTR", procedure::GETATTR, OBJECT),
        form(
            "SETATTR",
            procedure::SETATTR,
            with_attributes!(
                [("handle", Sort::Handle)],
                [
                    ("check", Sort::Boolean),
                    ("guard's seconds", Sort::Plain),
                    ("guard's nanoseconds", Sort::Plain)
                ]
            ),
        ),
        form("LOOKUP", procedure::LOOKUP, NAMED),
        form(
            "ACCESS",
            procedure::ACCESS,
            &[("handle", Sort::Handle), ("access", Sort::Plain)],
        ),
        form("READ", procedure::READ, RANGE),
        form(
            "WRITE",
            procedure::WRITE,
            &[
                ("handle", Sort::Handle),
                ("offset", Sort::Plain),
                ("count", Sort::Plain),
                ("stable", Sort::Enum),
                ("data", Sort::Text),
            ],
        ),
        form("CREATE UNCHECKED", procedure::CREATE, MADE),
        form("CREATE GUARDED", procedure::CREATE, MADE),
        form(
            "CREATE EXCLUSIVE",
            procedure::CREATE,
            &[
                ("handle", Sort::Handle),
                ("name", Sort::Text),
                ("manner", Sort::Enum),
                ("verifier", Sort::Plain),
            ],
        ),
        form(
            "MKDIR",
            procedure::MKDIR,
            with_attributes!([("handle", Sort::Handle), ("name", Sort::Text)], []),
        ),
        form("REMOVE", procedure::REMOVE, NAMED),
        form("RMDIR", procedure::RMDIR, NAMED),
        form(
            "RENAME",
            procedure::RENAME,
            &[
                ("first handle", Sort::Handle),
                ("first name", Sort::Text),
                ("second handle", Sort::Handle),
                ("second name", Sort::Text),
            ],
        ),
        form(
            "LINK",
            procedure::LINK,
            &[
                ("file's handle", Sort::Handle),
                ("directory's handle", Sort::Handle),
                ("name", Sort::Text),
            ],
        ),
        form(
            "READDIR",
            procedure::READDIR,
            &[
                ("handle", Sort::Handle),
                ("cookie", Sort::Plain),
                ("verifier", Sort::Plain),
                ("count", Sort::Plain),
            ],
        ),
        form("FSSTAT", procedure::FSSTAT, OBJECT),
        form("FSINFO", procedure::FSINFO, OBJECT),
        form("PATHCONF", procedure::PATHCONF, OBJECT),
        form("COMMIT", procedure::COMMIT, RANGE),
    ];

    const PATH: &[(&str, Sort)] = &[("path", Sort::Path)];

    /// The forms of the MOUNT procedures.
    pub const MOUNT_FORMS: [Form; 6] = [
        form("NULL", mount_procedure::NULL, &[]),
        form("MNT", mount_procedure::MNT, PATH),
        form("DUMP", mount_procedure::DUMP, &[]),
        form("UMNT", mount_procedure::UMNT, PATH),
        form("UMNTALL", mount_procedure::UMNTALL, &[]),
        form("EXPORT", mount_procedure::EXPORT, &[]),
    ];

    labels! { LABELS:
        CUT_BEHIND = "8: verifiers cut behind credentials of several lengths";
        VERIFIER_CUT = "9 at 28: overlong credential, verifier cut";
        VERIFIER_MISSING = "9 at 28: overlong credential, no verifier";
        BOTH_OVERLONG = "9 at 28: credential and verifier overlong";
        CREDENTIAL_PAST_END = "8 at 28: credential past the end, over an overlong verifier";
        GOOD_CREDENTIAL = "9 at the verifier: good credential, overlong verifier";
        PADS_OF_HEADER = "padding of credential and verifier changes no offset";
    }

    // Rules of the NFS entry alone.
    labels! { NFS_LABELS:
        STATUSES = "0: every status but OK";
        OTHER_ENTRIES = "0: check, format and convert, done and refused";
        OMITTED = "optional parts left out: cut at each byte";
        TIMES = "a time is two items, in both attributes and in the guard";
        FIXED = "eight opaque bytes are one item";
    }

    // Rules of the MOUNT entry alone.
    labels! { MOUNT_LABELS:
        MNT_STATUSES = "0: every status of MNT but OK";
        NFS_CALLS = "calls of the NFS program at this entry, and of MOUNT at the other: 0";
    }

    pub fn short(length: usize) -> String {
        format!("5: a call of {length} bytes")
    }

    pub fn first_item(length: usize) -> String {
        format!("8 at 8: a call of {length} bytes")
    }

    /// Message types that are no call's.
    pub const KINDS: [u32; 4] = [1, 2, 0x8000_0000, u32::MAX];
    /// What stands behind them.
    pub const NOTHING: &str = "nothing behind it";
    pub const UNDER_12: &str = "1 to 3 bytes behind it";
    pub const WHOLE: &str = "a whole call";
    pub const BROKEN: &str = "a broken header behind it";
    pub const OTHER_RPC: &str = "another RPC version behind it";

    pub fn kind(kind: u32, behind: &str) -> String {
        format!("7: message type {kind}, {behind}")
    }

    pub const RPC_VERSIONS: [u32; 5] = [0, 1, 3, 0x0200_0000, u32::MAX];

    pub fn denied(version: u32) -> String {
        format!("0: RPC version {version} denied, with 12 bytes and more")
    }

    pub fn denied_broken(version: u32) -> String {
        format!("0: RPC version {version} denied, with a broken header behind")
    }

    const CUT_ITEMS: [&str; 6] = [
        "RPC version",
        "program",
        "version",
        "procedure",
        "credential's flavor",
        "verifier's flavor",
    ];

    pub fn cut_item(name: &str) -> String {
        format!("8: {name} cut at each byte")
    }

    pub const CREDENTIAL: &str = "credential";
    pub const VERIFIER: &str = "verifier";
    const AUTHENTICATORS: [&str; 2] = [CREDENTIAL, VERIFIER];
    /// Lengths of credentials and verifiers that are cut.
    pub const BODIES: [usize; 7] = [0, 1, 2, 3, 4, 5, 400];

    pub fn cut_auth(name: &str, body: usize) -> String {
        format!("8: {name} of {body} bytes cut at each byte")
    }

    /// Lengths over 400.
    pub const OVERLONG: [u32; 13] = [
        401,
        402,
        403,
        404,
        405,
        1000,
        2001,
        0x0001_0000,
        0x7FFF_FFFF,
        0x8000_0000,
        u32::MAX - 3,
        u32::MAX - 2,
        u32::MAX,
    ];
    /// The largest of them that is sent with its bytes.
    pub const LARGEST_WITH_BYTES: u32 = 2001;
    /// How many of the bytes are there.
    pub const NONE: &str = "none of its bytes";
    pub const SOME: &str = "some of its bytes";
    pub const NO_PADDING: &str = "all of its bytes without the padding";
    pub const ALL: &str = "all of its bytes";

    pub fn overlong(name: &str, length: u32, there: &str) -> String {
        format!("9: {name} of {length} bytes, {there}")
    }

    pub fn word_cut(name: &str) -> String {
        format!("8: the length of an overlong {name} is itself cut")
    }

    const NOT_SERVED: [&str; 3] = ["program", "version", "procedure"];

    pub fn header_first(what: &str, number: u32) -> String {
        format!("{number}: another {what} with a broken header")
    }

    pub fn no_arguments(what: &str) -> String {
        format!("0: another {what} with broken arguments")
    }

    /// What is the matter with a call beside an earlier refusal.
    pub const FAULTS: [u32; 5] = [5, 7, 8, 9, 0];

    pub fn earlier(number: u32, fault: u32) -> String {
        if fault == 0 {
            format!("{number} at 0: with broken arguments")
        } else {
            format!("{number} at 0: with a call that would be {fault}")
        }
    }

    pub fn unserved(number: u32) -> String {
        let name = PROCEDURE_NAMES[number as usize];
        format!("0: {name} NOTSUPP, whatever follows")
    }

    /// The four procedures that are not served.
    pub const UNSERVED: [u32; 4] = [
        procedure::READLINK,
        procedure::SYMLINK,
        procedure::MKNOD,
        procedure::READDIRPLUS,
    ];

    pub fn cut(form: &str, item: &str) -> String {
        format!("{form}: {item} cut at each byte")
    }

    /// Values of an item that are refused, if it has any.
    pub fn bad(form: &str, item: &str, sort: Sort) -> Option<String> {
        let fault = match sort {
            Sort::Plain | Sort::Auth => return None,
            Sort::Boolean => "over 1",
            Sort::Enum => "unknown",
            Sort::Handle => "length over 64",
            Sort::Path => "length over 1,024",
            Sort::Text => "length past the call",
        };
        Some(format!("{form}: {item}, {fault}"))
    }

    pub fn whole_but_long(form: &str, item: &str) -> String {
        format!("{form}: {item} too long, with all its bytes")
    }

    pub fn left_over(form: &str, count: usize) -> String {
        format!("{form}: {count} bytes left over")
    }

    pub fn two_faults(form: &str) -> String {
        format!("{form}: two faults, the first decides")
    }

    pub fn heads(form: &str) -> String {
        format!("{form}: behind credentials and verifiers of several lengths")
    }

    pub fn pads(form: &str) -> String {
        format!("{form}: padding of any bytes changes no offset")
    }

    pub fn bad_handle(form: &str) -> String {
        format!("{form}: broken arguments before a bad or stale handle")
    }

    /// The labels that both entries have.
    fn shared(forms: &[Form], refusals: [u32; 4]) -> Vec<String> {
        let mut labels: Vec<String> = LABELS.iter().map(|&label| label.to_owned()).collect();
        labels.extend((0..=7).map(short));
        labels.extend((8..=11).map(first_item));
        for number in KINDS {
            let behind = [NOTHING, UNDER_12, WHOLE, BROKEN, OTHER_RPC];
            labels.extend(behind.map(|behind| kind(number, behind)));
        }
        labels.extend(RPC_VERSIONS.map(denied));
        labels.extend(RPC_VERSIONS.map(denied_broken));
        labels.extend(CUT_ITEMS.map(cut_item));
        for name in AUTHENTICATORS {
            labels.extend(BODIES.map(|body| cut_auth(name, body)));
            labels.push(word_cut(name));
            for length in OVERLONG {
                labels.extend([NONE, SOME].map(|there| overlong(name, length, there)));
                if length <= LARGEST_WITH_BYTES {
                    labels.push(overlong(name, length, ALL));
                    if !length.is_multiple_of(4) {
                        labels.push(overlong(name, length, NO_PADDING));
                    }
                }
            }
        }
        for what in NOT_SERVED {
            labels.extend([8, 9].map(|number| header_first(what, number)));
            labels.push(no_arguments(what));
        }
        for number in refusals {
            let faults = FAULTS.iter().filter(|&&fault| possible(&[number, fault]));
            labels.extend(faults.map(|&fault| earlier(number, fault)));
        }
        for form in forms {
            for (item, sort) in form.items {
                labels.push(cut(form.name, item));
                labels.extend(bad(form.name, item, *sort));
                if [Sort::Handle, Sort::Path].contains(sort) {
                    labels.push(whole_but_long(form.name, item));
                }
            }
            labels.extend((1..=5).map(|count| left_over(form.name, count)));
            labels.push(heads(form.name));
            if !form.items.is_empty() {
                labels.push(two_faults(form.name));
                labels.push(pads(form.name));
            }
        }
        labels
    }

    /// Every label of the vector file.
    pub fn nfs() -> Vec<String> {
        let mut labels = shared(&NFS_FORMS, [2, 3, 4, 1]);
        labels.extend(NFS_LABELS.iter().map(|&label| label.to_owned()));
        labels.extend(UNSERVED.map(unserved));
        let handled = NFS_FORMS.iter().filter(|form| !form.items.is_empty());
        labels.extend(handled.map(|form| bad_handle(form.name)));
        labels
    }

    /// Every label of the file of mounts.
    pub fn mount() -> Vec<String> {
        let mut labels = shared(&MOUNT_FORMS, [2, 4, 1, 12]);
        labels.extend(MOUNT_LABELS.iter().map(|&label| label.to_owned()));
        labels
    }
}
