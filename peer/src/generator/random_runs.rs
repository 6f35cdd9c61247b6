//! Random runs that know the state of the store, so that calls go deep:
//! most handles are live, most names exist, some handles are stale.

use super::broken_calls::{any_authenticators, break_by_chance, Itemized};
use super::coverage::status_name;
use super::driver::{Call, Driver, Format};
use super::encode::{handle, malformed, Attributes, Header, How, Request, Time};
use super::lane::{exclusive, link, mkdir, readdir, rename, status_of, Lane};
use super::old_images::{empty, free_further_names, old_image, Damaged};
use super::padding::Padded;
use super::random::Random;
use super::view::{Named, View};
use crate::layout::{
    name_field, object_field, word, Shape, MAX_BLOCKS, MAX_NAMES, MAX_OBJECTS, NAME_BYTES,
    OBJECTS_AT, OBJECT_BYTES,
};
use crate::numbers::{procedure, Status};
use crate::old_check::Counts;

/// How large the store of a run is.
#[derive(Clone, Copy, PartialEq, Eq, Debug)]
pub enum Extent {
    /// A few records and blocks.
    Small,
    /// Up to a few dozen records, and enough blocks for a few large files.
    Middle,
    /// Every object and name, and a few blocks.
    Wide,
    /// All that a store can have.
    Largest,
}

impl Extent {
    fn shape(self, random: &mut Random) -> Shape {
        let (objects, names, blocks) = match self {
            // Seldom too few records for two names.
            Extent::Small => (
                random.between(1, 8).max(random.between(1, 8)),
                random.between(0, 9).max(random.between(0, 9)),
                random.between(0, 12),
            ),
            Extent::Middle => (
                random.between(6, 30),
                random.between(5, 40),
                random.between(10, 40),
            ),
            Extent::Wide => (MAX_OBJECTS, MAX_NAMES, random.between(0, 40)),
            Extent::Largest => (MAX_OBJECTS, MAX_NAMES, MAX_BLOCKS),
        };
        Shape {
            objects,
            names,
            blocks,
        }
    }
}

/// Names that begin or end like others, or differ only in their length.
const NAMES: [&[u8]; 18] = [
    b"a",
    b"b",
    b"ab",
    b"abc",
    b"abcd",
    b"abcdefgh",
    b"abcdefghi",
    b"0123456789",
    b"123456789",
    b"...",
    b"..a",
    b"\xFF",
    b"\xFF\xFE\x80\x01",
    b"exactly-thirty-two-bytes-of-name",
    b"exactly-thirty-two-bytes-of-namf",
    b"exactly-thirty-one-bytes-of-nam",
    b"file 1",
    b"file 10",
];

/// Names that are refused or special.
const ODD_NAMES: [&[u8]; 9] = [
    b"",
    b".",
    b"..",
    b"a/b",
    b"a\0",
    b"\0",
    b"/",
    b"a-name-of-exactly-thirty-three-by",
    b"a-name-that-is-much-longer-than-the-thirty-two-bytes/it-may-have",
];

const SIZES: [u64; 18] = [
    0, 1, 2, 511, 512, 513, 1000, 1023, 1024, 1025, 2048, 4095, 4096, 4097, 8191, 8192, 600, 1500,
];

const ODD_SIZES: [u64; 8] = [
    8193,
    1 << 16,
    (1 << 32) - 1,
    1 << 32,
    (1 << 32) + 5,
    1 << 63,
    u64::MAX - 4095,
    u64::MAX,
];

/// Verifiers of EXCLUSIVE CREATE, so few that they come again by chance.
const VERIFIERS: [[u8; 8]; 4] = [[0; 8], *b"verifier", *b"verifies", [0xFF; 8]];

/// The group of labels for what random RENAMEs do.
pub const RENAMES: &str = "RENAME in random runs";

/// The group of labels for what random calls do with names of files.
pub const LINKS: &str = "Names of files in random runs";

/// The largest store that takes part in conversions.
const LARGEST_CONVERTED: usize = 50_000;

/// Which existing name a request asks for.
#[derive(Clone, Copy, PartialEq, Eq)]
enum Existing {
    No,
    Any,
    File,
    Directory,
}

/// The kinds of RENAME onto a name that exists.
const ITSELF: &str = "onto itself";
const OTHER_NAME: &str = "onto another name of the same file";
const BELOW: &str = "below itself";
const FILES: &str = "file over the last name of a file";
const ONE_OF_SEVERAL: &str = "file over one of several names of a file";
const FILE_ON_DIRECTORY: &str = "file over directory";
const DIRECTORY_ON_FILE: &str = "directory over file";
const ON_FULL: &str = "directory over a full one";
const ON_EMPTY: &str = "directory over an empty one";

/// Each of them with its status, as they are counted.
pub fn meetings() -> [String; 9] {
    [
        (ITSELF, Status::OK),
        (OTHER_NAME, Status::OK),
        (BELOW, Status::INVAL),
        (FILES, Status::OK),
        (ONE_OF_SEVERAL, Status::OK),
        (FILE_ON_DIRECTORY, Status::EXIST),
        (DIRECTORY_ON_FILE, Status::EXIST),
        (ON_FULL, Status::EXIST),
        (ON_EMPTY, Status::OK),
    ]
    .map(|(kind, status)| met(kind, status.0))
}

fn met(kind: &str, status: u32) -> String {
    format!("{kind}, {}", status_name(status))
}

/// What calls do with names of files, as it is counted.
pub fn link_kinds() -> Vec<String> {
    let mut kinds: Vec<String> = (2..=16).map(linked).collect();
    let others = [
        MANY,
        NO_ROOM,
        SHARED,
        APART,
        NOT_LAST,
        LAST,
        BY_ANY_NAME,
        CUT,
    ];
    kinds.extend(others.map(str::to_owned));
    kinds
}

const MANY: &str = "LINK of a file with 16 names, MLINK";
const NO_ROOM: &str = "LINK without a free name, NOSPC";
const SHARED: &str = "LINK into a directory that has a name of the file";
const APART: &str = "LINK into a directory without a name of the file";
const NOT_LAST: &str = "REMOVE of one of several names";
const LAST: &str = "REMOVE of the last name";
const CUT: &str = "READDIR cut at 4,096 bytes";
const BY_ANY_NAME: &str = "EXCLUSIVE again for a file with several names";

fn linked(names: usize) -> String {
    format!("LINK, now {names:2} names")
}

/// What a call with this status does with the names of a file in the store
/// before it.
fn link_events(view: &View, request: &Request, status: Status) -> Vec<String> {
    let names = |file: usize| view.names.iter().filter(move |named| named.child == file);
    let label = match (request, status) {
        (
            Request::Link {
                file, directory, ..
            },
            Status::OK,
        ) => {
            let [file, directory] = [file, directory].map(|handle| word(handle, 4) as usize);
            let shared = names(file).any(|named| named.directory == directory);
            let place = if shared { SHARED } else { APART };
            return vec![linked(names(file).count() + 1), place.to_owned()];
        }
        (Request::Link { .. }, Status::MLINK) => MANY,
        (Request::Link { .. }, Status::NOSPC) => NO_ROOM,
        (Request::Remove { directory, name }, Status::OK) => match view.find(directory, name) {
            Some(named) if names(named.child).count() > 1 => NOT_LAST,
            _ => LAST,
        },
        (
            Request::Create {
                directory,
                name,
                how: How::Exclusive(_),
            },
            Status::OK,
        ) => match view.find(directory, name) {
            Some(named) if names(named.child).count() > 1 => BY_ANY_NAME,
            _ => return vec![],
        },
        _ => return vec![],
    };
    vec![label.to_owned()]
}

/// What meets in a RENAME onto a name that exists.
struct Meeting {
    kind: &'static str,
    /// The handle of the object that has the second name.
    target: Vec<u8>,
}

/// Whether a listing does not end though the request sets no limit below 4,096.
fn cut_at_most(request: &Request, reply: &[u8]) -> bool {
    matches!(request, Request::Readdir { count, .. } if *count >= 4096)
        && status_of(reply) == Some(0)
        && word(reply, reply.len() - 4) == 0
}

/// What meets if the request is a RENAME of a name that exists onto another
/// one that exists.
fn meeting(view: &View, request: &Request) -> Option<Meeting> {
    let Request::Rename {
        from,
        from_name,
        to,
        to_name,
    } = request
    else {
        return None;
    };
    let moved = view.find(from, from_name)?;
    let target = view.find(to, to_name)?;
    let directories = (
        view.is_directory(moved.child),
        view.is_directory(target.child),
    );
    let kind = match directories {
        _ if moved.record == target.record => ITSELF,
        _ if moved.child == target.child => OTHER_NAME,
        (true, _) if view.is_within(target.directory, moved.child) => BELOW,
        (false, false) if view.links(target.child) > 1 => ONE_OF_SEVERAL,
        (false, false) => FILES,
        (false, true) => FILE_ON_DIRECTORY,
        (true, false) => DIRECTORY_ON_FILE,
        (true, true) if view.is_occupied(target.child) => ON_FULL,
        (true, true) => ON_EMPTY,
    };
    Some(Meeting {
        kind,
        target: view.handle(target.child)?.to_vec(),
    })
}

/// Where a RENAME goes that is to meet a name.
#[derive(Clone, Copy, PartialEq, Eq)]
enum Goal {
    /// An object that can be replaced.
    Replaceable,
    /// Any object.
    Any,
    /// The moved object itself, by any of its names.
    Itself,
    /// The moved name itself.
    ItsName,
    /// An object below the moved directory.
    Below,
}

/// A random run under way.
pub struct RandomRun<'d> {
    lane: Lane<'d>,
    random: Random,
    /// Every handle that a reply gave out.
    handles: Vec<Vec<u8>>,
    /// The handle of an object that RENAME has just replaced, for the next
    /// request that asks for a handle.
    replaced: Option<Vec<u8>>,
    /// The last call that was sent whole.
    last: Vec<u8>,
    /// The largest data of a WRITE, and the largest count of a READ.
    transfer: usize,
}

/// One random run of about `steps` calls.
pub fn run(
    driver: &mut dyn Driver,
    number: u32,
    seed: u64,
    extent: Extent,
    steps: usize,
    transfer: usize,
) {
    let mut random = Random::part(seed, u64::from(number));
    let shape = extent.shape(&mut random);
    let stamp = random.pick(&[0, 1, 0x0102_0304, u32::MAX, 77]);
    let mut lane = Lane::open(driver, number, "random run", shape, stamp);
    lane.seconds = random.pick(&[1000, 0, 0x7FFF_FFF0, u32::MAX - 20]);
    lane.space = random.pick(&[4224, 4224, 4225, 4301, 8192]);
    let mut random_run = RandomRun {
        lane,
        random,
        handles: Vec::new(),
        replaced: None,
        last: Vec::new(),
        transfer,
    };
    if extent == Extent::Wide && random_run.random.once_in(3) {
        random_run.fill_root();
    }
    for _ in 0..steps {
        random_run.step();
    }
}

impl RandomRun<'_> {
    fn step(&mut self) {
        match self.random.below(103) {
            0..=67 => {
                let request = self.request();
                self.send(&request);
            }
            100..=102 => self.many_links(),
            68..=75 => self.broken_call(),
            76..=77 => {
                let request = self.request();
                let call = self.call(&request);
                let bytes = self.cut(&call);
                self.lane.raw(bytes);
            }
            78..=80 => self.send_again(),
            81..=82 => self.convert(),
            83..=86 => self.changed_call(),
            87..=89 => self.bytes_in_blocks(),
            90..=91 => self.other_valid_fields(),
            92..=94 => self.damage(),
            95 => self.odd_entry(),
            96 => self.odd_header(),
            97 => {
                let length = self.random.pick(&[0, 7, 8, 11, 12, 39, 40, 41, 100, 300]);
                let bytes = self.random.bytes(length);
                self.lane.raw(&bytes);
            }
            98 => {
                self.lane.driver.check();
            }
            _ => self.format_again(),
        }
    }

    fn view(&self) -> Option<View> {
        View::of(self.lane.driver.store())
    }

    /// The call of a request, seldom with a credential and a verifier.
    fn call(&mut self, request: &Request) -> Padded {
        let mut header = Header::new(self.lane.next_xid(), request.procedure());
        if self.random.once_in(10) {
            header.credential = (1, vec![0xC1; self.random.below(8)]);
            header.verifier = (0, vec![0xC2; self.random.below(8)]);
        }
        self.padded(&header, request)
    }

    /// The call with this header; one of three has old memory as padding.
    fn padded(&mut self, header: &Header, request: &Request) -> Padded {
        let mut call = Padded::new(header, &request.fields());
        if self.random.once_in(3) {
            call.fill_all(&mut self.random);
        }
        call
    }

    /// The call cut inside one of its paddings, if it has any.
    fn cut<'c>(&mut self, call: &'c Padded) -> &'c [u8] {
        let places = call.padded();
        if places.is_empty() {
            return &call.bytes;
        }
        let place = self.random.pick(&places);
        call.cut(place, self.random.between(1, call.count(place)))
    }

    /// Sends a call and keeps the handle that its reply gives out.
    fn send(&mut self, request: &Request) {
        let view = self.view();
        let meeting = view.as_ref().and_then(|view| meeting(view, request));
        self.last = self.call(request).bytes;
        let outcome = self.lane.raw(&self.last);
        let status = status_of(&outcome.reply);
        if let (Some(view), Some(status)) = (view, status) {
            for label in link_events(&view, request, Status(status)) {
                self.lane.driver.note(LINKS, &label);
            }
            if cut_at_most(request, &outcome.reply) {
                self.lane.driver.note(LINKS, CUT);
            }
        }
        if let (Some(meeting), Some(status)) = (meeting, status) {
            let label = met(meeting.kind, status);
            self.lane.driver.note(RENAMES, &label);
            if status == 0 && ![ITSELF, OTHER_NAME].contains(&meeting.kind) {
                self.keep(&meeting.target);
                self.replaced = self.random.once_in(2).then_some(meeting.target);
            }
        }
        if status != Some(0) {
            return;
        }
        let at = match request.procedure() {
            procedure::LOOKUP => 32,
            procedure::CREATE | procedure::MKDIR => 36,
            _ => return,
        };
        self.keep(&outcome.reply[at..at + 12]);
    }

    fn keep(&mut self, given: &[u8]) {
        if !self.handles.iter().any(|known| known == given) {
            self.handles.push(given.to_vec());
        }
    }

    /// A handle, mostly live and of the wanted kind.
    fn handle(&mut self, view: &View, directory: bool) -> Vec<u8> {
        if let Some(replaced) = self.replaced.take() {
            return replaced;
        }
        let random = &mut self.random;
        let right: Vec<&[u8]> = view
            .live
            .iter()
            .filter(|seen| seen.directory == directory)
            .map(|seen| &seen.handle[..])
            .collect();
        let any = random.below(view.live.len());
        let any = view.live[any].handle.clone();
        match random.below(40) {
            0..=31 if !right.is_empty() => random.pick(&right).to_vec(),
            0..=33 => any,
            34..=35 => {
                let stale: Vec<&Vec<u8>> = self
                    .handles
                    .iter()
                    .filter(|known| !view.is_live(known))
                    .collect();
                if stale.is_empty() {
                    any
                } else {
                    random.pick(&stale).clone()
                }
            }
            36 => {
                let object = random.below(view.shape.objects) as u32;
                handle(view.stamp, object, random.pick(&[0, 1, 2, u32::MAX]))
            }
            37 => {
                let object = random.pick(&[
                    view.shape.objects as u32,
                    view.shape.objects as u32 + 1,
                    64,
                    u32::MAX,
                ]);
                handle(view.stamp, object, 0)
            }
            38 => {
                let mut changed = any;
                let at = random.below(12);
                changed[at] ^= 1 << random.below(8);
                changed
            }
            _ => {
                let length = random.pick(&[0, 1, 4, 10, 11, 13, 14, 16, 32, 61, 63, 64]);
                let mut changed = any;
                changed.resize(length, 0);
                changed
            }
        }
    }

    /// A name, mostly sound; `wanted` asks for one of that directory.
    fn name(&mut self, view: &View, directory: &[u8], wanted: Existing) -> Vec<u8> {
        let random = &mut self.random;
        if wanted != Existing::No && !random.once_in(5) {
            let fits = |child: usize| match wanted {
                Existing::Directory => view.is_directory(child),
                Existing::File => !view.is_directory(child),
                _ => true,
            };
            let any_kind = random.once_in(5);
            let named: Vec<&[u8]> = view
                .names
                .iter()
                .filter(|named| view.handle(named.directory) == Some(directory))
                .filter(|named| any_kind || fits(named.child))
                .map(|named| &named.name[..])
                .collect();
            if !named.is_empty() {
                return random.pick(&named).to_vec();
            }
        }
        match random.below(20) {
            0..=13 => random.pick(&NAMES).to_vec(),
            14..=16 => {
                let length = random.between(1, 32);
                (0..length)
                    .map(|_| random.pick(b"abcdefghijkl-mnop_01234\x2E\xC3\xA9"))
                    .collect()
            }
            17 => format!("{}", random.below(200)).into_bytes(),
            _ => random.pick(&ODD_NAMES).to_vec(),
        }
    }

    /// A directory and a name in it, mostly ones that exist.
    fn place(&mut self, view: &View, wanted: Existing) -> (Vec<u8>, Vec<u8>) {
        if !self.random.once_in(4) {
            let named: Vec<(&[u8], &[u8])> = view
                .names
                .iter()
                .filter(|named| view.is_directory(named.child) == (wanted == Existing::Directory))
                .filter_map(|named| Some((view.handle(named.directory)?, &named.name[..])))
                .collect();
            if !named.is_empty() {
                let (directory, name) = self.random.pick(&named);
                return (directory.to_vec(), name.to_vec());
            }
        }
        let directory = self.handle(view, true);
        let name = self.name(view, &directory, wanted);
        (directory, name)
    }

    /// `Any` once in so many times, otherwise `No`.
    fn existing_once_in(&mut self, times: usize) -> Existing {
        if self.random.once_in(times) {
            Existing::Any
        } else {
            Existing::No
        }
    }

    fn size(&mut self) -> u64 {
        match self.random.below(12) {
            0..=6 => self.random.pick(&SIZES),
            7..=10 => self.random.below(3000) as u64,
            _ => self.random.pick(&ODD_SIZES),
        }
    }

    fn nanoseconds(&mut self) -> u32 {
        if self.random.once_in(12) {
            self.random.pick(&[1_000_000_000, 0x8000_0000, u32::MAX])
        } else {
            self.random.pick(&[0, 1, 999_999_999, 5])
        }
    }

    fn time(&mut self) -> Time {
        match self.random.below(4) {
            0 | 1 => Time::Keep,
            2 => Time::Server,
            _ => Time::Client(
                self.random.pick(&[0, 1, 1234, u32::MAX]),
                self.nanoseconds(),
            ),
        }
    }

    fn attributes(&mut self, size_in: usize) -> Attributes {
        let random = &mut self.random;
        let mode = if random.once_in(20) {
            random.pick(&[4096, 0x8000, u32::MAX])
        } else {
            random.pick(&[0, 0o644, 0o755, 4095])
        };
        Attributes {
            mode: random.once_in(2).then_some(mode),
            uid: random.once_in(3).then(|| random.pick(&[0, 1, u32::MAX])),
            gid: random.once_in(3).then(|| random.pick(&[0, 7, u32::MAX])),
            size: if random.below(12) < size_in {
                Some(self.size())
            } else {
                None
            },
            atime: self.time(),
            mtime: self.time(),
        }
    }

    /// A well-formed request that suits the state of the store.
    fn request(&mut self) -> Request {
        let Some(view) = self.view() else {
            return Request::Null;
        };
        match self.random.below(113) {
            100..=112 => self.link_request(&view),
            0..=13 => {
                let directory = self.handle(&view, true);
                let existing = self.existing_once_in(4);
                let name = self.name(&view, &directory, existing);
                let how = match self.random.below(10) {
                    0..=3 => How::Unchecked(self.attributes(6)),
                    4..=6 => How::Guarded(self.attributes(6)),
                    _ => How::Exclusive(self.random.pick(&VERIFIERS)),
                };
                Request::Create {
                    directory,
                    name,
                    how,
                }
            }
            14..=22 => {
                let directory = self.handle(&view, true);
                let existing = self.existing_once_in(6);
                let name = self.name(&view, &directory, existing);
                let attributes = self.attributes(1);
                Request::Mkdir {
                    directory,
                    name,
                    attributes,
                }
            }
            23..=34 => self.write_request(&view),
            35..=40 => {
                let file = self.handle(&view, false);
                let offset = self.size();
                let count = match self.random.below(8) {
                    0 => 0,
                    1..=5 => self.random.below(self.transfer.max(1)) as u32,
                    6 => self.random.pick(&[512, 4095, 4096, 4097]),
                    _ => u32::MAX,
                };
                // Long replies are rare when the transfer is small.
                let count = if self.transfer < 4096 && !self.random.once_in(8) {
                    count.min(self.transfer as u32)
                } else {
                    count
                };
                Request::Read {
                    file,
                    offset,
                    count,
                }
            }
            41..=49 => {
                let directory = self.random.once_in(5);
                let object = self.handle(&view, directory);
                let attributes = self.attributes(if directory { 1 } else { 8 });
                let guard = match self.random.below(8) {
                    0 => Some((self.random.word(), self.nanoseconds())),
                    1 | 2 => {
                        let found = view.live.iter().find(|seen| seen.handle == object);
                        found.map(|seen| seen.ctime)
                    }
                    _ => None,
                };
                Request::Setattr {
                    object,
                    attributes,
                    guard,
                }
            }
            50..=56 => {
                let directory = self.handle(&view, true);
                let existing = self
                    .random
                    .pick(&[Existing::Any, Existing::Any, Existing::No]);
                let name = self.name(&view, &directory, existing);
                Request::Lookup { directory, name }
            }
            57..=62 => {
                let (directory, name) = self.place(&view, Existing::File);
                Request::Remove { directory, name }
            }
            63..=66 => {
                let (directory, name) = self.place(&view, Existing::Directory);
                Request::Rmdir { directory, name }
            }
            67..=82 => self.rename_request(&view),
            83..=88 => {
                let directory = self.handle(&view, true);
                let cookie = match self.random.below(6) {
                    0..=2 => 0,
                    3 => self.random.below(8) as u64,
                    4 => self.random.below(140) as u64,
                    _ => self.random.pick(&ODD_SIZES),
                };
                let count = match self.random.below(5) {
                    0 | 1 => 4096,
                    2 | 3 => self.random.between(90, 400) as u32,
                    _ => self.random.pick(&[0, 103, 104, 131, 132, 160, u32::MAX]),
                };
                let mut verifier = [0; 8];
                if self.random.once_in(20) {
                    verifier[self.random.below(8)] = 1;
                }
                Request::Readdir {
                    directory,
                    cookie,
                    verifier,
                    count,
                }
            }
            89..=90 => {
                let directory = self.random.once_in(2);
                let object = self.handle(&view, directory);
                Request::Getattr { object }
            }
            91..=92 => {
                let directory = self.random.once_in(2);
                let object = self.handle(&view, directory);
                let access = self.random.pick(&[0x3F, 0x2D, 0x12, u32::MAX, 0]);
                Request::Access { object, access }
            }
            93..=94 => {
                let object = self.handle(&view, true);
                Request::Fsstat { object }
            }
            95 => {
                let object = self.handle(&view, false);
                Request::Fsinfo { object }
            }
            96 => {
                let object = self.handle(&view, false);
                Request::Pathconf { object }
            }
            97 => {
                let file = self.handle(&view, false);
                let offset = self.size();
                let count = self.random.word();
                Request::Commit {
                    file,
                    offset,
                    count,
                }
            }
            98 => Request::Null,
            _ => {
                let procedure = self.random.pick(&[5, 10, 11, 17, 22, u32::MAX]);
                let length = self.random.below(40);
                let arguments = self.random.bytes(length);
                Request::Other {
                    procedure,
                    arguments,
                }
            }
        }
    }

    /// A LINK, mostly one that succeeds.
    fn link_request(&mut self, view: &View) -> Request {
        let file = match self.random.below(12) {
            0..=4 => self.most_linked(view),
            _ => None,
        };
        let file = file.unwrap_or_else(|| self.handle(view, false));
        let directory = match self.random.below(16) {
            0 => file.clone(),
            _ => self.handle(view, true),
        };
        let existing = self.existing_once_in(10);
        let name = if existing == Existing::No && self.random.once_in(2) {
            self.numbered_name()
        } else {
            self.name(view, &directory, existing)
        };
        link(&file, &directory, &name)
    }

    /// A sound name, one of many.
    fn numbered_name(&mut self) -> Vec<u8> {
        let number = self.random.below(300);
        match self.random.below(4) {
            0 => format!("link-{number:027}").into_bytes(),
            1 => format!("{number:03}").into_bytes(),
            _ => format!("tag {number}").into_bytes(),
        }
    }

    /// The handle of a file that has as many names as any.
    fn most_linked(&mut self, view: &View) -> Option<Vec<u8>> {
        let files = view.live.iter().filter(|seen| !seen.directory);
        let most = files.max_by_key(|seen| view.links(seen.object));
        most.map(|seen| seen.handle.clone())
    }

    /// Files in the root with up to 16 long names each, until its listing is
    /// longer than one reply.
    fn fill_root(&mut self) {
        let root = self.lane.root();
        let names = self.random.between(75, MAX_NAMES);
        let each = self.random.between(2, 17);
        // The root is an object too.
        let mut left = self.lane.shape.objects - 1;
        let mut file = Vec::new();
        for number in 0..names {
            let name = format!("one of many names in the root{number:03}");
            if number % each == 0 && left > 0 {
                file = self.lane.exclusive(&root, name.as_bytes(), VERIFIERS[1]);
                left -= 1;
            } else if number % each == 0 {
                // No object for one more file; like EXCLUSIVE, this draws no number.
                self.lane.send(&link(&file, &root, name.as_bytes()));
            } else {
                self.send(&link(&file, &root, name.as_bytes()));
            }
        }
        for cookie in [0, self.random.below(MAX_NAMES) as u64] {
            self.send(&readdir(&root, cookie, 0, 4096));
        }
    }

    /// A few to many LINKs of one file, up to 16 names and one more.
    fn many_links(&mut self) {
        let Some(view) = self.view() else {
            return;
        };
        let files = view.live.iter().filter(|seen| !seen.directory);
        let files: Vec<&Vec<u8>> = files.map(|seen| &seen.handle).collect();
        let file = match self.most_linked(&view) {
            None => return,
            Some(most) if self.random.once_in(2) => most,
            Some(_) => self.random.pick(&files).clone(),
        };
        let directories: Vec<Vec<u8>> = view
            .live
            .iter()
            .filter(|seen| seen.directory)
            .map(|seen| seen.handle.clone())
            .collect();
        let one = self.random.below(directories.len());
        // Few in small stores, so that there is room for directories.
        let count = self.random.between(2, 17).min(view.shape.names / 3);
        for _ in 0..count {
            let at = if self.random.once_in(2) {
                one
            } else {
                self.random.below(directories.len())
            };
            let name = self.numbered_name();
            self.send(&link(&file, &directories[at], &name));
        }
    }

    /// A RENAME, mostly onto a name that exists.
    fn rename_request(&mut self, view: &View) -> Request {
        let goal = match self.random.below(16) {
            0..=7 => Some(Goal::Replaceable),
            8..=9 => Some(Goal::Any),
            10 => Some(Goal::Itself),
            11 => Some(Goal::Below),
            12 => Some(Goal::ItsName),
            _ => None,
        };
        if let Some(request) = goal.and_then(|goal| self.rename_onto(view, goal)) {
            return request;
        }
        if goal == Some(Goal::Replaceable) {
            return self.another(view);
        }
        let wanted = self.random.pick(&[Existing::File, Existing::Directory]);
        let (from, from_name) = self.place(view, wanted);
        let to = self.handle(view, true);
        let existing = self.existing_once_in(5);
        let to_name = self.name(view, &to, existing);
        Request::Rename {
            from,
            from_name,
            to,
            to_name,
        }
    }

    /// A CREATE or MKDIR in a live directory, so that there is something to
    /// replace.
    fn another(&mut self, view: &View) -> Request {
        let directories: Vec<&[u8]> = view
            .live
            .iter()
            .filter(|seen| seen.directory)
            .map(|seen| &seen.handle[..])
            .collect();
        let directory = self.random.pick(&directories);
        let name = self.random.pick(&NAMES);
        if self.random.once_in(2) {
            mkdir(directory, name, Attributes::default())
        } else {
            exclusive(directory, name, self.random.pick(&VERIFIERS))
        }
    }

    /// A RENAME of a name that exists onto one that exists, if there is such a
    /// pair.
    fn rename_onto(&mut self, view: &View, goal: Goal) -> Option<Request> {
        let any_directory = self.random.once_in(2);
        let fits = |moved: &Named, target: &Named| match goal {
            Goal::Replaceable => {
                moved.child != target.child
                    && view.is_directory(moved.child) == view.is_directory(target.child)
                    && !view.is_occupied(target.child)
                    && !view.is_within(target.directory, moved.child)
            }
            Goal::Any => {
                moved.child != target.child && view.is_directory(target.child) == any_directory
            }
            // A file with several names has many such pairs.
            Goal::Itself => moved.child == target.child,
            Goal::ItsName => moved.record == target.record,
            Goal::Below => view.is_within(target.directory, moved.child),
        };
        let pairs_of = |directory: bool| -> Vec<(&Named, &Named)> {
            let moved = view.names.iter();
            moved
                .filter(|moved| view.is_directory(moved.child) == directory)
                .flat_map(|moved| view.names.iter().map(move |target| (moved, target)))
                .filter(|(moved, target)| fits(moved, target))
                .collect()
        };
        // Files are more than directories; both kinds are moved.
        let directory = self.random.once_in(2);
        let mut pairs = pairs_of(directory);
        if pairs.is_empty() {
            pairs = pairs_of(!directory);
        }
        if pairs.is_empty() {
            return None;
        }
        let (moved, target) = self.random.pick(&pairs);
        Some(rename(
            view.handle(moved.directory)?,
            &moved.name,
            view.handle(target.directory)?,
            &target.name,
        ))
    }

    fn write_request(&mut self, view: &View) -> Request {
        let file = self.handle(view, false);
        let offset = match self.random.below(4) {
            // Near the end of some file.
            0 | 1 => {
                let at = self.random.below(view.live.len());
                let size = u64::from(view.live[at].size);
                let step = self.random.pick(&[0, 1, 5, 100, 512, 600]);
                if self.random.once_in(2) {
                    size + step
                } else {
                    size.saturating_sub(step)
                }
            }
            _ => self.size(),
        };
        let length = match self.random.below(16) {
            0 => 0,
            1..=9 => self.random.below(120),
            10..=13 => self.random.below(self.transfer.max(1)),
            14 => self.random.pick(&[511, 512, 513]).min(self.transfer),
            _ => self
                .random
                .pick(&[1000, 4096, 4097, 5000])
                .min(self.transfer),
        };
        let data = self.random.bytes(length);
        let count = if self.random.once_in(15) {
            self.random.pick(&[0, 1, 4096, length as u32 + 1, u32::MAX])
        } else {
            length as u32
        };
        Request::Write {
            file,
            offset,
            count,
            stable: self.random.below(3) as u32,
            data,
        }
    }

    /// The last call once more, or an EXCLUSIVE CREATE of a file by the name
    /// that it has now, mostly with the verifier that it keeps.
    fn send_again(&mut self) {
        let kept = self.view().and_then(|view| {
            let kept: Vec<(usize, [u8; 8])> = view
                .live
                .iter()
                .filter_map(|seen| Some((seen.object, seen.verifier?)))
                .collect();
            if kept.is_empty() || self.random.once_in(3) {
                return None;
            }
            let (file, verifier) = self.random.pick(&kept);
            let names: Vec<&Named> = view
                .names
                .iter()
                .filter(|named| named.child == file)
                .collect();
            let named = self.random.pick(&names);
            let directory = view.handle(named.directory)?;
            let verifier = if self.random.once_in(5) {
                self.random.pick(&VERIFIERS)
            } else {
                verifier
            };
            Some(exclusive(directory, &named.name, verifier))
        });
        match kept {
            Some(request) => self.send(&request),
            None => {
                self.lane.raw(&self.last);
            }
        }
    }

    /// Converts the old image of the store, whole or damaged, over the store.
    fn convert(&mut self) {
        let store = self.lane.driver.store();
        if store.len() > LARGEST_CONVERTED || crate::check(store).number != 0 {
            return;
        }
        let own = old_image(self.lane.shape, store);
        // Seldom an image that becomes a store of another length.
        let other = self.random.once_in(8).then(|| self.random.below(3) as u32);
        let other = other.and_then(|more| empty(1 + more, more, 1));
        let shape = self.lane.shape;
        let own_counts = Counts {
            objects: shape.objects,
            names: shape.names,
            blocks: shape.blocks,
        };
        let (counts, mut image) = other.unwrap_or((own_counts, own));
        // Where files have several names the image is not sound; most lose all
        // names but one of each file, or all but one that is left over.
        let kept = self.random.pick(&[0, 0, 0, 1, MAX_NAMES]);
        free_further_names(counts, &mut image, kept);
        if self.random.once_in(2) {
            for _ in 0..self.random.between(1, 2) {
                Damaged {
                    image: &mut image,
                    counts,
                    random: &mut self.random,
                }
                .once();
            }
        } else if self.random.once_in(2) {
            // The target need not be a store before.
            let bytes = self.random.bytes(16);
            let at = self.random.below(store.len() - bytes.len());
            self.lane.driver.patch(at, &bytes);
        }
        self.lane.driver.convert(&image);
    }

    /// A sound call with some bytes changed, or spoiled arguments.
    fn changed_call(&mut self) {
        let request = self.request();
        if self.random.once_in(2) {
            let spoiled = malformed(&request.fields());
            let at = self.random.below(spoiled.len());
            let header = Header::new(self.lane.next_xid(), request.procedure());
            self.lane.raw(&header.call(&spoiled[at].1));
            return;
        }
        let mut bytes = self.call(&request).bytes;
        for _ in 0..self.random.between(1, 3) {
            // The arguments more often than the header.
            let start = if bytes.len() > 40 && !self.random.once_in(3) {
                40
            } else {
                0
            };
            let at = self.random.between(start, bytes.len() - 1);
            bytes[at] = match self.random.below(4) {
                0 => bytes[at].wrapping_add(1),
                1 => bytes[at] ^ (1 << self.random.below(8)),
                2 => 0,
                _ => self.random.next() as u8,
            };
        }
        match self.random.below(8) {
            0 => bytes.truncate(self.random.below(bytes.len())),
            1 => bytes.resize(bytes.len() + self.random.between(1, 5), 0),
            _ => {}
        }
        self.lane.raw(&bytes);
    }

    /// A call that is cut, lengthened or has fields damaged, behind a header
    /// of any length.
    fn broken_call(&mut self) {
        let request = self.request();
        let mut header = Header::new(self.lane.next_xid(), request.procedure());
        any_authenticators(&mut header, &mut self.random);
        let mut call = Itemized::new(&header, &request.fields());
        if self.random.once_in(3) {
            call.fill_pads(self.random.pick(&[1, b'/', 0xFF]));
        }
        let bytes = break_by_chance(&call, &mut self.random);
        self.lane.raw(&bytes);
    }

    /// Random bytes in the blocks: free ones, used ones and past the ends.
    fn bytes_in_blocks(&mut self) {
        let start = self.lane.shape.block_count_at() + 4;
        let store = self.lane.driver.store().len();
        if start < store {
            let at = self.random.between(start, store - 1);
            let length = self.random.between(1, 300).min(store - at);
            let bytes = self.random.bytes(length);
            self.lane.driver.patch(at, &bytes);
        }
    }

    /// Values that calls seldom or never leave behind, in a valid store.
    fn other_valid_fields(&mut self) {
        let Some(view) = self.view() else {
            return;
        };
        if !view.free.is_empty() && self.random.once_in(2) {
            let object = self.random.pick(&view.free);
            let at = self.lane.object_at(object) + 4;
            let generation = self.random.pick(&[
                u32::MAX,
                u32::MAX - 1,
                u32::MAX - 2,
                0,
                0x7FFF_FFFF,
                0x8000_0000,
            ]);
            self.lane.patch_word(at, generation);
            return;
        }
        let seen = &view.live[self.random.below(view.live.len())];
        let at = self.lane.object_at(seen.object);
        match self.random.below(7) {
            0 => self.lane.patch_word(at + 4, u32::MAX - 1),
            1 => self.lane.patch_word(at + 8, 4095),
            2 => self.lane.patch_word(at + 12, u32::MAX),
            3 => self.lane.patch_word(at + 44, 999_999_999),
            4 => self.lane.patch_word(at + 32, u32::MAX),
            5 if !seen.directory => {
                let verifier = self.random.pick(&VERIFIERS);
                let kept = [&verifier[..], &[0, 0, 0, 1]].concat();
                self.lane.driver.patch(at + object_field::VERIFIER, &kept);
            }
            _ => self.swap_names(&view),
        }
    }

    /// Exchanges two name records; the store stays valid.
    fn swap_names(&mut self, view: &View) {
        if view.shape.names < 2 {
            return;
        }
        let first = self.lane.name_at(self.random.below(view.shape.names));
        let second = self.lane.name_at(self.random.below(view.shape.names));
        let store = self.lane.driver.store();
        let (one, other) = (
            store[first..first + 44].to_vec(),
            store[second..second + 44].to_vec(),
        );
        self.lane.driver.patch(first, &other);
        self.lane.driver.patch(second, &one);
    }

    /// Changes a few record bytes, sees what check and calls say, and takes
    /// the change back.
    fn damage(&mut self) {
        let records = self.lane.shape.block_count_at() + 4;
        let kept = self.lane.driver.store()[..records].to_vec();
        let mut touched: Vec<(usize, usize)> = Vec::new();
        for _ in 0..self.random.between(1, 2) {
            let (at, bytes) = self.damage_once(records);
            touched.push((at, bytes.len()));
            self.lane.driver.patch(at, &bytes);
        }
        if self.random.once_in(2) {
            self.lane.driver.check();
        }
        let request = self.request();
        let store_before = self.lane.driver.store()[..records].to_vec();
        self.send(&request);
        // A change that left the store valid may stay, if a call built on it.
        let valid = crate::check(self.lane.driver.store()).number == 0;
        if valid && (self.lane.driver.store()[..records] != store_before[..]) {
            return;
        }
        for (at, length) in touched.into_iter().rev() {
            self.lane.driver.patch(at, &kept[at..at + length]);
        }
        if crate::check(self.lane.driver.store()).number != 0 {
            // The store was already damaged before.
            self.lane.driver.check();
        }
    }

    fn damage_once(&mut self, records: usize) -> (usize, Vec<u8>) {
        let shape = self.lane.shape;
        let random = &mut self.random;
        let store = self.lane.driver.store();
        match random.below(10) {
            0 | 1 => {
                let at = random.below(records);
                (at, vec![store[at] ^ (1 << random.below(8))])
            }
            7..=9 => self.damaged_name(),
            2 => {
                let at = random.below(records);
                (at, vec![random.pick(&[0, 1, 2, 0x2E, 0x2F, 0xFF])])
            }
            // A field of an object record.
            3 => {
                let at = OBJECTS_AT
                    + OBJECT_BYTES * random.below(shape.objects)
                    + 4 * random.below(OBJECT_BYTES / 4);
                let value = random.pick(&[
                    0,
                    1,
                    2,
                    3,
                    512,
                    4096,
                    8192,
                    8193,
                    1_000_000_000,
                    u32::MAX,
                    u32::MAX - 1,
                ]);
                (at, value.to_be_bytes().to_vec())
            }
            // A word of a verifier, or a flag.
            4 => {
                let at = OBJECTS_AT + OBJECT_BYTES * random.below(shape.objects);
                let field = random.pick(&[
                    object_field::VERIFIER,
                    object_field::VERIFIER + 4,
                    object_field::FLAG,
                    object_field::FLAG,
                ]);
                let value = random.pick(&[0, 1, 2, 0x0100_0000, u32::MAX]);
                (at + field, value.to_be_bytes().to_vec())
            }
            // One record over another.
            5 => {
                let from = OBJECTS_AT + OBJECT_BYTES * random.below(shape.objects);
                let to = OBJECTS_AT + OBJECT_BYTES * random.below(shape.objects);
                (to, store[from..from + OBJECT_BYTES].to_vec())
            }
            _ => {
                if shape.names == 0 {
                    return (0, vec![0, 0, 0, 2]);
                }
                let start = shape.name_count_at() + 4;
                let from = start + 44 * random.below(shape.names);
                let to = start + 44 * random.below(shape.names);
                (to, store[from..from + 44].to_vec())
            }
        }
    }

    /// A name more or less, or one that names another object: of the root, of a
    /// directory, of a free object, or of a file, mostly one with many names.
    fn damaged_name(&mut self) -> (usize, Vec<u8>) {
        let shape = self.lane.shape;
        if shape.names == 0 {
            return (0, vec![0, 0, 0, 2]);
        }
        let store = self.lane.driver.store();
        let start = |record: usize| shape.name_count_at() + 4 + NAME_BYTES * record;
        let length = |record: usize| word(store, start(record) + name_field::LENGTH);
        let (used, free): (Vec<usize>, Vec<usize>) =
            (0..shape.names).partition(|&record| length(record) != 0);
        let children = used.iter().map(|&record| store[start(record) + 7]);
        let mut counts = [0; 256];
        for child in children {
            counts[usize::from(child)] += 1;
        }
        let most = (0..256).max_by_key(|&child| counts[child]).unwrap_or(0) as u32;
        let any = self.random.below(shape.objects) as u32;
        let child = self.random.pick(&[most, most, any, any, 0]);
        let number = self.random.below(1000);
        let name = format!("more {number}");
        let directory = self.random.pick(&[0, 0, any]);
        let mut bytes = [directory, child, name.len() as u32]
            .map(u32::to_be_bytes)
            .concat();
        bytes.extend(name.as_bytes());
        bytes.resize(NAME_BYTES, 0);
        match self.random.below(4) {
            // One more.
            0 | 1 if !free.is_empty() => (start(self.random.pick(&free)), bytes),
            // One less.
            2 if !used.is_empty() => (start(self.random.pick(&used)), vec![0; NAME_BYTES]),
            // Another object.
            _ if !used.is_empty() => {
                let at = start(self.random.pick(&used)) + name_field::CHILD;
                (at, child.to_be_bytes().to_vec())
            }
            _ => (start(self.random.below(shape.names)), bytes),
        }
    }

    /// Odd reply spaces, clocks and call lengths.
    fn odd_entry(&mut self) {
        let request = self.request();
        let mut bytes = self.call(&request).bytes;
        if self.random.once_in(6) {
            bytes.resize(self.random.pick(&[8191, 8192, 8193, 10_000]), 0);
        }
        let call = Call {
            bytes: &bytes,
            seconds: self.random.word(),
            nanoseconds: self
                .random
                .pick(&[0, 999_999_999, 999_999_999, 1_000_000_000, u32::MAX]),
            verifier: self.random.next(),
            space: self
                .random
                .pick(&[0, 1, 24, 4223, 4224, 4224, 4225, 4999, 8192]),
        };
        self.lane.driver.call(call);
    }

    /// Sound and unsound credentials, versions and programs.
    fn odd_header(&mut self) {
        let request = self.request();
        let xid = self.lane.next_xid();
        let mut header = Header::new(xid, request.procedure());
        let lengths = [0, 1, 2, 3, 4, 21, 397, 398, 399, 400, 401, 500];
        let length = self.random.pick(&lengths);
        header.credential = (self.random.word(), vec![0xC1; length]);
        let length = self.random.pick(&lengths);
        header.verifier = (self.random.below(8) as u32, vec![0xC2; length]);
        match self.random.below(10) {
            0 => header.kind = self.random.pick(&[1, 2, u32::MAX]),
            1 => header.rpc_version = self.random.pick(&[0, 1, 3]),
            2 => header.program = self.random.pick(&[100_000, 100_005, 0]),
            3 => header.version = self.random.pick(&[2, 4, 0]),
            _ => {}
        }
        let call = self.padded(&header, &request);
        let bytes = match self.random.below(6) {
            0 => &call.bytes[..self.random.below(call.bytes.len())],
            1 => self.cut(&call),
            _ => &call.bytes,
        };
        self.lane.raw(bytes);
    }

    /// Seldom a new store in the same buffer, more often a refused format.
    fn format_again(&mut self) {
        let shape = self.lane.shape;
        let mut plan = Format {
            stamp: self.lane.stamp,
            objects: shape.objects as u32,
            names: shape.names as u32,
            blocks: shape.blocks as u32,
            seconds: self.random.word(),
            nanoseconds: 7,
        };
        match self.random.below(8) {
            0 => plan.objects = self.random.pick(&[0, 65, u32::MAX]),
            1 => plan.names = self.random.pick(&[129, u32::MAX]),
            2 => plan.blocks = self.random.pick(&[1025, u32::MAX]),
            3 => plan.blocks ^= 1,
            4 => plan.nanoseconds = self.random.pick(&[1_000_000_000, u32::MAX]),
            5 => plan.objects ^= 1,
            _ => {
                if !self.random.once_in(3) {
                    return;
                }
            }
        }
        self.lane.driver.format(plan);
    }
}

/// A run on a buffer that holds no formatted store: random bytes, random
/// bytes with sound counts, and images cut short or made longer.
pub fn raw_store_run(driver: &mut dyn Driver, number: u32, seed: u64) {
    let mut random = Random::part(seed, u64::from(number));
    let kind = random.below(3);
    let shape = Extent::Small.shape(&mut random);
    let length = match kind {
        0 => random.below(700),
        1 => shape.length(),
        _ => {
            let change = random.pick(&[1usize, 2, 3, 4, 12, 44, 80, 92, 512]);
            if random.once_in(2) {
                shape.length() + change
            } else {
                shape.length().saturating_sub(change)
            }
        }
    };
    driver.start(number, length, "any bytes as a store");
    let mut image = match kind {
        0 | 1 => random.bytes(length),
        _ => {
            let mut image = vec![0; shape.length()];
            crate::format(
                &mut image,
                random.word(),
                shape.objects as u32,
                shape.names as u32,
                shape.blocks as u32,
                1,
                2,
            );
            image.resize(length, 0);
            image
        }
    };
    if kind == 1 {
        for (at, count) in [
            (0, 1),
            (8, shape.objects),
            (shape.name_count_at(), shape.names),
            (shape.block_count_at(), shape.blocks),
        ] {
            image[at..at + 4].copy_from_slice(&(count as u32).to_be_bytes());
        }
        // Records of free objects and names around a few random ones.
        for object in 1..shape.objects {
            if !random.once_in(3) {
                let at = OBJECTS_AT + OBJECT_BYTES * object;
                image[at..at + OBJECT_BYTES].fill(0);
            }
        }
        for record in 0..shape.names {
            if !random.once_in(3) {
                let at = shape.name_count_at() + 4 + 44 * record;
                image[at..at + 44].fill(0);
            }
        }
    }
    for (index, part) in image.chunks(super::driver::MAX_PATCH).enumerate() {
        driver.patch(index * super::driver::MAX_PATCH, part);
    }
    driver.check();
    for _ in 0..3 {
        let length = if random.once_in(12) {
            random.pick(&[8192, 8193])
        } else {
            random.pick(&[0, 8, 12, 40, 56, 200])
        };
        let mut bytes = random.bytes(length);
        if random.once_in(2) && length >= 40 {
            let header = Header::new(random.word(), random.below(23) as u32).encode();
            bytes[..40].copy_from_slice(&header);
        }
        driver.call(Call {
            bytes: &bytes,
            seconds: random.word(),
            nanoseconds: random.pick(&[0, 999_999_999, 1_000_000_000]),
            verifier: random.next(),
            space: random.pick(&[0, 4223, 4224, 4224, 4224, 8192]),
        });
    }
    driver.format(Format {
        stamp: random.word(),
        objects: random.below(10) as u32,
        names: random.below(10) as u32,
        blocks: random.below(14) as u32,
        seconds: 0,
        nanoseconds: random.pick(&[0, 1_000_000_000]),
    });
    driver.check();
}
