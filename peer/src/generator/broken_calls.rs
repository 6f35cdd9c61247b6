//! Calls that are broken on purpose: the builder knows where each item starts,
//! so the scripts know what must be answered.

use std::collections::BTreeSet;

use super::driver::{is_garbage, Outcome};
use super::encode::{encode, Field, Header};
use super::random::Random;
use super::rules::place::{self as rule, Form, Sort};

/// An item of a call that starts and ends at these bytes. One of variable
/// length starts at its length and ends behind its padding.
#[derive(Clone, Copy, Debug)]
pub struct Item {
    pub start: usize,
    pub end: usize,
    pub sort: Sort,
    /// Where its pad bytes start, if it has any.
    pub value_end: usize,
}

/// A whole call and its items from the RPC version on.
#[derive(Clone, Debug)]
pub struct Itemized {
    pub bytes: Vec<u8>,
    pub items: Vec<Item>,
}

/// How many items a header has.
pub const HEADER_ITEMS: usize = 8;
/// Which of them are the credential and the verifier.
pub const CREDENTIAL: usize = 5;
pub const VERIFIER: usize = 7;

/// What must be answered: the number, and the offset. Number 0 with an offset
/// is GARBAGE_ARGS.
pub type Wanted = (u32, usize);

fn sort_of(field: &Field, path: bool) -> Sort {
    match field {
        Field::Boolean(_) => Sort::Boolean,
        Field::Enum(_, _) => Sort::Enum,
        Field::Handle(_) => Sort::Handle,
        Field::Text(_) if path => Sort::Path,
        Field::Text(_) => Sort::Text,
        Field::Word(_) | Field::Hyper(_) | Field::Fixed(_) | Field::Raw(_) => Sort::Plain,
    }
}

impl Itemized {
    /// The call with this header and these arguments. Texts are paths in calls
    /// of the MOUNT program.
    pub fn new(header: &Header, fields: &[Field]) -> Itemized {
        let mut call = Itemized {
            bytes: header.encode(),
            items: Vec::new(),
        };
        let path = header.program == 100_005;
        let mut at = 8;
        let mut add = |count: usize, padding: usize, sort: Sort| {
            call.items.push(Item {
                start: at,
                end: at + count + padding,
                sort,
                value_end: at + count,
            });
            at += count + padding;
        };
        // RPC version, program, version, procedure.
        for _ in 0..4 {
            add(4, 0, Sort::Plain);
        }
        for (_, body) in [&header.credential, &header.verifier] {
            add(4, 0, Sort::Plain);
            add(4 + body.len(), (4 - body.len() % 4) % 4, Sort::Auth);
        }
        for field in fields {
            let bytes = encode(std::slice::from_ref(field));
            let padding = match field {
                Field::Handle(value) | Field::Text(value) => (4 - value.len() % 4) % 4,
                _ => 0,
            };
            add(bytes.len() - padding, padding, sort_of(field, path));
            call.bytes.extend(bytes);
        }
        call
    }

    /// The item of an argument.
    pub fn argument(&self, number: usize) -> Item {
        self.items[HEADER_ITEMS + number]
    }

    /// What the call must be answered if only so many bytes are there, which
    /// are fewer than all.
    pub fn cut(&self, length: usize) -> Wanted {
        if length < 8 {
            return (5, 0);
        }
        let found = self.items.iter().position(|item| item.end > length);
        let index = found.expect("a call that is cut");
        let number = if index < HEADER_ITEMS { 8 } else { 0 };
        (number, self.items[index].start)
    }

    /// The call with another word at the start of an item.
    pub fn with_word(&self, index: usize, word: u32) -> Vec<u8> {
        let mut bytes = self.bytes.clone();
        let start = self.items[index].start;
        bytes[start..start + 4].copy_from_slice(&word.to_be_bytes());
        bytes
    }

    /// Words that are refused at the start of an item, whatever follows.
    pub fn bad_words(&self, index: usize) -> Vec<u32> {
        let item = self.items[index];
        let far = [9000, 0x7FFF_FFFF, 0x8000_0000, u32::MAX - 3, u32::MAX];
        match item.sort {
            Sort::Plain => vec![],
            Sort::Boolean => vec![2, 3, 0x0100_0000, 0x8000_0000, u32::MAX],
            Sort::Enum => vec![3, 4, 0x0100_0000, 0x8000_0000, u32::MAX],
            Sort::Auth => [&[401, 404], &far[..]].concat(),
            Sort::Handle => [&[65, 68], &far[..]].concat(),
            Sort::Path => [&[1025, 1028], &far[..]].concat(),
            Sort::Text => {
                // One more than the bytes behind the length.
                let past = (self.bytes.len() - item.start - 3) as u32;
                [&[past, u32::MAX - 2, u32::MAX - 1], &far[..]].concat()
            }
        }
    }

    /// Puts a byte at every pad byte.
    pub fn fill_pads(&mut self, byte: u8) {
        for item in &self.items {
            self.bytes[item.value_end..item.end].fill(byte);
        }
    }
}

/// The call broken by chance: cut, lengthened, or with values that are refused,
/// in the header or in the arguments. Sometimes it has two faults.
pub fn break_by_chance(call: &Itemized, random: &mut Random) -> Vec<u8> {
    let count = call.items.len();
    let items = if random.once_in(4) || count == HEADER_ITEMS && random.once_in(2) {
        0..HEADER_ITEMS
    } else {
        HEADER_ITEMS..count
    };
    let refusing: Vec<usize> = items
        .clone()
        .filter(|&index| !call.bad_words(index).is_empty())
        .collect();
    let mut bytes = call.bytes.clone();
    if !refusing.is_empty() && random.once_in(2) {
        for _ in 0..random.pick(&[1, 1, 2]) {
            let index = random.pick(&refusing);
            let start = call.items[index].start;
            let word = random.pick(&call.bad_words(index));
            bytes[start..start + 4].copy_from_slice(&word.to_be_bytes());
        }
        match random.below(6) {
            0 => bytes.truncate(call.items[random.pick(&refusing)].start + 4),
            1 => bytes.truncate(random.between(12, bytes.len())),
            2 => bytes.push(0),
            _ => {}
        }
    } else if items.start == 0 && random.once_in(3) {
        // No message, or no call's.
        if random.once_in(2) {
            bytes.truncate(random.below(8));
        } else {
            bytes[4..8].copy_from_slice(&random.pick(&[1, 2, 0x8000_0000, u32::MAX]).to_be_bytes());
        }
    } else if items.start > 0 && (items.is_empty() || random.once_in(4)) {
        let length = bytes.len() + random.between(1, 9);
        bytes.resize(length, random.pick(&[0, 1, 0xFF]));
    } else {
        // Right in front of an item, or inside it.
        let item = call.items[items.start + random.below(items.len())];
        let inside = random.below((item.end - item.start).max(1));
        bytes.truncate(item.start + inside);
    }
    bytes
}

/// Gives a header a credential and a verifier of any length, mostly short ones.
pub fn any_authenticators(header: &mut Header, random: &mut Random) {
    let mut length = || match random.below(16) {
        0..=7 => 0,
        8..=13 => random.below(9),
        14 => random.below(401),
        _ => random.between(397, 400),
    };
    header.credential = (1, vec![0xC1; length()]);
    header.verifier = (0, vec![0xC2; length()]);
}

/// Who sends the calls of a script: one of the two entries for calls. The
/// clock stands still.
pub trait Sender {
    fn deliver(&mut self, bytes: &[u8]) -> Outcome;
    fn note(&mut self, label: &str);
    /// The header of a procedure, with two empty authenticators.
    fn header(&self, procedure: u32) -> Header;
}

/// A script that knows the rules it has to show.
pub struct Script<'s> {
    sender: &'s mut dyn Sender,
    known: BTreeSet<String>,
}

/// Lengths of credentials and verifiers in front of arguments.
pub const HEADS: [(usize, usize); 6] = [(1, 0), (0, 2), (3, 5), (4, 4), (20, 8), (400, 397)];

impl<'s> Script<'s> {
    pub fn new(sender: &'s mut dyn Sender, rules: Vec<String>) -> Script<'s> {
        Script {
            sender,
            known: rules.into_iter().collect(),
        }
    }

    /// Counts a rule that the script has just seen hold.
    pub fn rule(&mut self, label: &str) {
        assert!(self.known.contains(label), "{label}");
        self.sender.note(label);
    }

    /// Sends a call, which must be answered like this.
    pub fn see(&mut self, bytes: &[u8], wanted: Wanted) -> Outcome {
        let outcome = self.sender.deliver(bytes);
        let answer = outcome.answer;
        let got = (answer.number, answer.offset as usize);
        assert_eq!(got, wanted, "{bytes:02x?}");
        assert_eq!(is_garbage(&outcome.reply), wanted.0 == 0 && wanted.1 != 0);
        assert_eq!(outcome.reply.is_empty(), wanted.0 != 0);
        outcome
    }

    pub fn header(&self, procedure: u32) -> Header {
        self.sender.header(procedure)
    }

    fn header_with(&self, procedure: u32, credential: usize, verifier: usize) -> Header {
        Header {
            credential: (1, vec![0xC1; credential]),
            verifier: (2, vec![0xC2; verifier]),
            ..self.header(procedure)
        }
    }

    /// Everything about headers, in calls of a procedure that is served and of
    /// which these are good arguments.
    pub fn headers(&mut self, procedure: u32, arguments: &[Field]) {
        let sound = Itemized::new(&self.header(procedure), arguments);
        for length in 0..=7 {
            self.see(&sound.bytes[..length], (5, 0));
            self.see(&vec![0xFF; length], (5, 0));
            self.rule(&rule::short(length));
        }
        for length in 8..=11 {
            self.see(&sound.bytes[..length], (8, 8));
            let mut other = sound.bytes[..length].to_vec();
            other[8..].fill(0xFF);
            self.see(&other, (8, 8));
            self.rule(&rule::first_item(length));
        }
        self.message_types(&sound);
        self.other_rpc_versions(&sound);
        self.cut_headers(procedure);
        self.overlong(procedure);
        self.two_authenticators(procedure);
        self.header_first(procedure, arguments);
        self.pads_of_headers(procedure);
    }

    fn message_types(&mut self, sound: &Itemized) {
        for kind in rule::KINDS {
            let mut call = sound.clone();
            call.bytes[4..8].copy_from_slice(&kind.to_be_bytes());
            self.see(&call.bytes[..8], (7, 0));
            self.rule(&rule::kind(kind, rule::NOTHING));
            for length in 9..12 {
                self.see(&call.bytes[..length], (7, 0));
            }
            self.rule(&rule::kind(kind, rule::UNDER_12));
            self.see(&call.bytes, (7, 0));
            self.rule(&rule::kind(kind, rule::WHOLE));
            for length in [12, 23, 24, 28, 31, 38] {
                self.see(&call.bytes[..length], (7, 0));
            }
            for at in [CREDENTIAL, VERIFIER] {
                self.see(&call.with_word(at, 401), (7, 0));
            }
            self.rule(&rule::kind(kind, rule::BROKEN));
            self.see(&call.with_word(0, 3), (7, 0));
            self.see(&call.with_word(0, 3)[..12], (7, 0));
            self.rule(&rule::kind(kind, rule::OTHER_RPC));
            for length in 0..=7 {
                self.see(&call.bytes[..length], (5, 0));
            }
        }
    }

    fn other_rpc_versions(&mut self, sound: &Itemized) {
        for version in rule::RPC_VERSIONS {
            let call = sound.with_word(0, version);
            for length in [12, 13, 16, 27, 36, call.len()] {
                self.see(&call[..length], (0, 0));
            }
            self.rule(&rule::denied(version));
            let mut broken = call.clone();
            broken[28..32].fill(0xFF);
            self.see(&broken, (0, 0));
            broken.extend([1, 2, 3]);
            self.see(&broken, (0, 0));
            self.rule(&rule::denied_broken(version));
            for length in 8..12 {
                self.see(&call[..length], (8, 8));
            }
        }
    }

    /// Each item of the header cut at each of its bytes.
    fn cut_headers(&mut self, procedure: u32) {
        let names = [
            "RPC version",
            "program",
            "version",
            "procedure",
            "credential's flavor",
            "",
            "verifier's flavor",
            "",
        ];
        for (credential, verifier) in [(0, 0), (5, 3)] {
            let header = self.header_with(procedure, credential, verifier);
            let call = Itemized::new(&header, &[]);
            for (name, item) in names.into_iter().zip(&call.items) {
                if name.is_empty() {
                    continue;
                }
                for length in item.start..item.end {
                    self.see(&call.bytes[..length], (8, item.start));
                }
                self.rule(&rule::cut_item(name));
            }
        }
        for body in rule::BODIES {
            for (at, name) in [(CREDENTIAL, rule::CREDENTIAL), (VERIFIER, rule::VERIFIER)] {
                let header = if at == CREDENTIAL {
                    self.header_with(procedure, body, 2)
                } else {
                    self.header_with(procedure, 0, body)
                };
                let call = Itemized::new(&header, &[]);
                let item = call.items[at];
                for length in item.start..item.end {
                    self.see(&call.bytes[..length], (8, item.start));
                }
                self.rule(&rule::cut_auth(name, body));
            }
        }
        // The verifier behind credentials of several lengths.
        for (credential, verifier) in HEADS {
            let header = self.header_with(procedure, credential, verifier);
            let call = Itemized::new(&header, &[]);
            for item in [call.items[VERIFIER - 1], call.items[VERIFIER]] {
                for length in [item.start, item.start + 1, item.start + 3, item.end - 1] {
                    self.see(&call.bytes[..length], (8, item.start));
                }
            }
        }
        self.rule(rule::CUT_BEHIND);
    }

    /// Lengths over 400.
    fn overlong(&mut self, procedure: u32) {
        for (at, name) in [(CREDENTIAL, rule::CREDENTIAL), (VERIFIER, rule::VERIFIER)] {
            let heads: &[usize] = if at == CREDENTIAL { &[0] } else { &[0, 6] };
            for length in rule::OVERLONG {
                for &credential in heads {
                    let header = self.header_with(procedure, credential, 0);
                    let call = Itemized::new(&header, &[]);
                    let start = call.items[at].start;
                    let mut bytes = call.with_word(at, length);
                    bytes.truncate(start + 4);
                    self.see(&bytes, (9, start));
                    self.rule(&rule::overlong(name, length, rule::NONE));
                    for some in [1, 4, 37, 400] {
                        if some < length as usize {
                            bytes.resize(start + 4 + some, 0xC3);
                            self.see(&bytes, (9, start));
                        }
                    }
                    self.rule(&rule::overlong(name, length, rule::SOME));
                    for count in 1..4 {
                        let word = &length.to_be_bytes()[..count];
                        let cut = [&call.bytes[..start], word].concat();
                        self.see(&cut, (8, start));
                    }
                    self.rule(&rule::word_cut(name));
                    if length > rule::LARGEST_WITH_BYTES {
                        continue;
                    }
                    let length = length as usize;
                    bytes.truncate(start + 4);
                    bytes.resize(start + 4 + length, 0xC3);
                    self.see(&bytes, (9, start));
                    if !length.is_multiple_of(4) {
                        self.rule(&rule::overlong(name, length as u32, rule::NO_PADDING));
                    }
                    bytes.resize(start + 4 + length.next_multiple_of(4), 0);
                    self.see(&bytes, (9, start));
                    // The verifier, and bytes like arguments.
                    bytes.extend([0; 8]);
                    self.see(&bytes, (9, start));
                    self.rule(&rule::overlong(name, length as u32, rule::ALL));
                }
            }
        }
    }

    /// Both authenticators broken: the credential decides.
    fn two_authenticators(&mut self, procedure: u32) {
        let both = Itemized::new(&self.header_with(procedure, 8, 8), &[]);
        let verifier = both.items[VERIFIER];
        for length in [401, 404, 0x8000_0000, u32::MAX] {
            let bytes = both.with_word(CREDENTIAL, length);
            for end in [verifier.start + 2, verifier.start + 4, verifier.start + 7] {
                self.see(&bytes[..end], (9, 28));
            }
            self.rule(rule::VERIFIER_CUT);
            self.see(&bytes[..verifier.start], (9, 28));
            self.see(&bytes[..verifier.start - 4], (9, 28));
            self.rule(rule::VERIFIER_MISSING);
            let mut overlong = bytes.clone();
            overlong[verifier.start..verifier.start + 4].copy_from_slice(&length.to_be_bytes());
            self.see(&overlong, (9, 28));
            self.rule(rule::BOTH_OVERLONG);
            // A credential of up to 400 bytes that runs past the call's end,
            // over a verifier that is overlong.
            for credential in [25, 100, 399, 400] {
                let mut past = both.with_word(VERIFIER, length);
                past[28..32].copy_from_slice(&u32::to_be_bytes(credential));
                self.see(&past, (8, 28));
            }
            self.rule(rule::CREDENTIAL_PAST_END);
            // The credential is good.
            self.see(&both.with_word(VERIFIER, length), (9, verifier.start));
            self.rule(rule::GOOD_CREDENTIAL);
        }
    }

    /// A program, version or procedure that is not served.
    fn header_first(&mut self, procedure: u32, arguments: &[Field]) {
        for (index, what, values) in [
            (1, "program", [0, 100_004, u32::MAX]),
            (2, "version", [0, 2, 4]),
            (3, "procedure", [22, 0x0100_0000, u32::MAX]),
        ] {
            let sound = Itemized::new(&self.header_with(procedure, 5, 3), arguments);
            for value in values {
                let call = Itemized {
                    bytes: sound.with_word(index, value),
                    ..sound.clone()
                };
                let verifier = call.items[VERIFIER];
                for length in [24, 28, 30, 36, 43, 44, verifier.end - 1] {
                    self.see(&call.bytes[..length], call.cut(length));
                }
                self.rule(&rule::header_first(what, 8));
                for at in [CREDENTIAL, VERIFIER] {
                    for length in [401, u32::MAX] {
                        self.see(&call.with_word(at, length), (9, call.items[at].start));
                    }
                }
                self.rule(&rule::header_first(what, 9));
                let end = verifier.end;
                for length in [end, end + 1, end + 3, call.bytes.len()] {
                    let length = length.min(call.bytes.len());
                    self.see(&call.bytes[..length], (0, 0));
                }
                let longer = [&call.bytes[..], &[0xFF; 5]].concat();
                self.see(&longer, (0, 0));
                let garbage = [&call.bytes[..end], &[0xFF; 9]].concat();
                self.see(&garbage, (0, 0));
                self.rule(&rule::no_arguments(what));
            }
        }
    }

    /// Pad bytes of credential and verifier.
    fn pads_of_headers(&mut self, procedure: u32) {
        for (credential, verifier) in [(1, 2), (3, 1), (6, 7), (397, 399)] {
            let header = self.header_with(procedure, credential, verifier);
            let mut call = Itemized::new(&header, &[]);
            for byte in [0xFF, b'/', 1] {
                call.fill_pads(byte);
                for item in [call.items[CREDENTIAL], call.items[VERIFIER]] {
                    for length in item.value_end..item.end {
                        self.see(&call.bytes[..length], (8, item.start));
                    }
                }
                // The verifier behind the credential's padding.
                let verifier = call.items[VERIFIER].start;
                self.see(&call.bytes[..verifier + 2], (8, verifier));
            }
            // A NULL that is whole, and one byte more.
            let mut null = Itemized::new(&header, &[]);
            null.bytes[20..24].fill(0);
            null.fill_pads(0xEE);
            let end = null.bytes.len();
            self.see(&null.bytes, (0, 0));
            null.bytes.push(0);
            self.see(&null.bytes, (0, end));
        }
        self.rule(rule::PADS_OF_HEADER);
    }

    /// Everything about the arguments of a form, of which these are good ones.
    pub fn arguments(&mut self, form: &Form, fields: &[Field]) {
        let sound = Itemized::new(&self.header(form.procedure), fields);
        assert_eq!(sound.items.len(), HEADER_ITEMS + form.items.len());
        for (number, (_, sort)) in form.items.iter().enumerate() {
            assert_eq!(sound.argument(number).sort, *sort, "{}", form.name);
        }
        self.each_byte_cut(form, &sound);
        self.left_over(form, &sound);
        self.bad_words(form, &sound);
        self.long_fields(form, fields);
        self.two_faults(form, &sound);
        for (credential, verifier) in HEADS {
            let header = self.header_with(form.procedure, credential, verifier);
            self.behind_head(&Itemized::new(&header, fields));
        }
        self.rule(&rule::heads(form.name));
    }

    /// The arguments cut at each of their bytes.
    fn each_byte_cut(&mut self, form: &Form, sound: &Itemized) {
        for (number, (name, _)) in form.items.iter().enumerate() {
            let item = sound.argument(number);
            for length in item.start..item.end {
                self.see(&sound.bytes[..length], (0, item.start));
            }
            self.rule(&rule::cut(form.name, name));
        }
    }

    /// The same without counting each item: for arguments of other lengths.
    pub fn cut_anywhere(&mut self, procedure: u32, fields: &[Field]) {
        let call = Itemized::new(&self.header(procedure), fields);
        for length in call.items[VERIFIER].end..call.bytes.len() {
            self.see(&call.bytes[..length], call.cut(length));
        }
    }

    fn left_over(&mut self, form: &Form, sound: &Itemized) {
        let end = sound.bytes.len();
        for count in 1..=5 {
            for byte in [0, 0xFF] {
                let mut bytes = sound.bytes.clone();
                bytes.resize(end + count, byte);
                self.see(&bytes, (0, end));
            }
            self.rule(&rule::left_over(form.name, count));
        }
    }

    /// Values that are refused, with the bytes behind them, without, and with
    /// others.
    fn bad_words(&mut self, form: &Form, sound: &Itemized) {
        for (number, (name, sort)) in form.items.iter().enumerate() {
            let index = HEADER_ITEMS + number;
            let start = sound.items[index].start;
            for word in sound.bad_words(index) {
                let bytes = sound.with_word(index, word);
                self.see(&bytes, (0, start));
                self.see(&bytes[..start + 4], (0, start));
                if bytes.len() > start + 9 {
                    self.see(&bytes[..start + 9], (0, start));
                }
            }
            if let Some(label) = rule::bad(form.name, name, *sort) {
                self.rule(&label);
            }
        }
    }

    /// Handles and paths that are too long, with all their bytes.
    fn long_fields(&mut self, form: &Form, fields: &[Field]) {
        for (number, (name, sort)) in form.items.iter().enumerate() {
            let lengths: &[usize] = match sort {
                Sort::Handle => &[65, 66, 67, 68, 100, 404],
                Sort::Path => &[1025, 1026, 1027, 1028],
                _ => continue,
            };
            for &length in lengths {
                let mut fields = fields.to_vec();
                fields[number] = match sort {
                    Sort::Handle => Field::Handle(vec![7; length]),
                    _ => Field::Text(vec![b'/'; length]),
                };
                let call = Itemized::new(&self.header(form.procedure), &fields);
                let item = call.argument(number);
                self.see(&call.bytes, (0, item.start));
                self.see(&call.bytes[..item.value_end], (0, item.start));
            }
            self.rule(&rule::whole_but_long(form.name, name));
        }
    }

    /// Two faults: the first in reading order decides.
    fn two_faults(&mut self, form: &Form, sound: &Itemized) {
        let indices = HEADER_ITEMS..sound.items.len();
        let mut seen = false;
        for first in indices.clone() {
            let words = sound.bad_words(first);
            let Some(&word) = words.first() else { continue };
            let start = sound.items[first].start;
            let bytes = sound.with_word(first, word);
            for later in first + 1..indices.end {
                let item = sound.items[later];
                // A fault of the later item, and a cut there.
                let mut both = bytes.clone();
                if let Some(&other) = sound.bad_words(later).last() {
                    both[item.start..item.start + 4].copy_from_slice(&other.to_be_bytes());
                    self.see(&both, (0, start));
                }
                self.see(&both[..item.end - 1], (0, start));
            }
            let longer = [&bytes[..], &[0]].concat();
            self.see(&longer, (0, start));
            seen = true;
        }
        if seen {
            self.rule(&rule::two_faults(form.name));
        }
    }

    /// Cuts, refused values and bytes left over where the arguments do not
    /// start at 40.
    fn behind_head(&mut self, call: &Itemized) {
        for (index, item) in call.items.iter().enumerate().skip(HEADER_ITEMS) {
            for length in [item.start, item.end - 1] {
                self.see(&call.bytes[..length], (0, item.start));
            }
            if let Some(&word) = call.bad_words(index).first() {
                self.see(&call.with_word(index, word), (0, item.start));
            }
        }
        let longer = [&call.bytes[..], &[0]].concat();
        self.see(&longer, (0, call.bytes.len()));
    }

    /// Arguments whose fields have pad bytes of any value.
    pub fn pads(&mut self, form: &Form, fields: &[Field]) {
        let header = self.header_with(form.procedure, 5, 3);
        let mut call = Itemized::new(&header, fields);
        let padded = |item: &Item| item.value_end < item.end;
        assert!(call.items[HEADER_ITEMS..].iter().any(padded));
        for byte in [0, 0xFF, b'.'] {
            call.fill_pads(byte);
            for item in &call.items[HEADER_ITEMS..] {
                self.see(&call.bytes[..item.start], (0, item.start));
                for length in item.value_end..item.end {
                    self.see(&call.bytes[..length], (0, item.start));
                }
            }
            let longer = [&call.bytes[..], &[byte]].concat();
            self.see(&longer, (0, call.bytes.len()));
        }
        self.rule(&rule::pads(form.name));
    }
}
