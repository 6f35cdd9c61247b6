//! Building RPC calls, well-formed and malformed.

use crate::numbers::{message, procedure};

/// A handle of the store.
pub fn handle(stamp: u32, object: u32, generation: u32) -> Vec<u8> {
    let mut bytes = stamp.to_be_bytes().to_vec();
    bytes.extend(object.to_be_bytes());
    bytes.extend(generation.to_be_bytes());
    bytes
}

/// A time that a call sets.
#[derive(Clone, Copy, PartialEq, Eq, Debug, Default)]
pub enum Time {
    #[default]
    Keep,
    Server,
    Client(u32, u32),
}

/// The attributes that a call sets.
#[derive(Clone, Copy, PartialEq, Eq, Debug, Default)]
pub struct Attributes {
    pub mode: Option<u32>,
    pub uid: Option<u32>,
    pub gid: Option<u32>,
    pub size: Option<u64>,
    pub atime: Time,
    pub mtime: Time,
}

impl Attributes {
    /// Only a size.
    pub fn size(size: u64) -> Attributes {
        Attributes {
            size: Some(size),
            ..Attributes::default()
        }
    }

    /// Only a mode.
    pub fn mode(mode: u32) -> Attributes {
        Attributes {
            mode: Some(mode),
            ..Attributes::default()
        }
    }
}

/// How CREATE makes a file.
#[derive(Clone, PartialEq, Eq, Debug)]
pub enum How {
    Unchecked(Attributes),
    Guarded(Attributes),
    Exclusive([u8; 8]),
}

/// The arguments of one procedure.
#[derive(Clone, PartialEq, Eq, Debug)]
pub enum Request {
    Null,
    Getattr {
        object: Vec<u8>,
    },
    Setattr {
        object: Vec<u8>,
        attributes: Attributes,
        guard: Option<(u32, u32)>,
    },
    Lookup {
        directory: Vec<u8>,
        name: Vec<u8>,
    },
    Access {
        object: Vec<u8>,
        access: u32,
    },
    Read {
        file: Vec<u8>,
        offset: u64,
        count: u32,
    },
    Write {
        file: Vec<u8>,
        offset: u64,
        count: u32,
        stable: u32,
        data: Vec<u8>,
    },
    Create {
        directory: Vec<u8>,
        name: Vec<u8>,
        how: How,
    },
    Mkdir {
        directory: Vec<u8>,
        name: Vec<u8>,
        attributes: Attributes,
    },
    Remove {
        directory: Vec<u8>,
        name: Vec<u8>,
    },
    Rmdir {
        directory: Vec<u8>,
        name: Vec<u8>,
    },
    Rename {
        from: Vec<u8>,
        from_name: Vec<u8>,
        to: Vec<u8>,
        to_name: Vec<u8>,
    },
    Link {
        file: Vec<u8>,
        directory: Vec<u8>,
        name: Vec<u8>,
    },
    Readdir {
        directory: Vec<u8>,
        cookie: u64,
        verifier: [u8; 8],
        count: u32,
    },
    Fsstat {
        object: Vec<u8>,
    },
    Fsinfo {
        object: Vec<u8>,
    },
    Pathconf {
        object: Vec<u8>,
    },
    Commit {
        file: Vec<u8>,
        offset: u64,
        count: u32,
    },
    /// A procedure that is not served, or any number, with any arguments.
    Other {
        procedure: u32,
        arguments: Vec<u8>,
    },
}

/// One field of the arguments as XDR sees it.
#[derive(Clone, PartialEq, Eq, Debug)]
pub enum Field {
    Word(u32),
    Hyper(u64),
    Boolean(bool),
    /// A value and the largest value of the enum.
    Enum(u32, u32),
    Handle(Vec<u8>),
    Text(Vec<u8>),
    Fixed([u8; 8]),
    Raw(Vec<u8>),
}

impl Field {
    pub fn encode(&self, bytes: &mut Vec<u8>) {
        match self {
            Field::Word(value) | Field::Enum(value, _) => bytes.extend(value.to_be_bytes()),
            Field::Hyper(value) => bytes.extend(value.to_be_bytes()),
            Field::Boolean(value) => bytes.extend(u32::from(*value).to_be_bytes()),
            Field::Handle(value) | Field::Text(value) => opaque(bytes, value),
            Field::Fixed(value) => bytes.extend(value),
            Field::Raw(value) => bytes.extend(value),
        }
    }
}

/// Appends bytes of variable length with their length and padding.
pub fn opaque(bytes: &mut Vec<u8>, value: &[u8]) {
    bytes.extend((value.len() as u32).to_be_bytes());
    bytes.extend(value);
    bytes.resize(bytes.len().next_multiple_of(4), 0);
}

/// The fields one after the other.
pub fn encode(fields: &[Field]) -> Vec<u8> {
    let mut bytes = Vec::new();
    for field in fields {
        field.encode(&mut bytes);
    }
    bytes
}

fn time_fields(fields: &mut Vec<Field>, time: Time) {
    match time {
        Time::Keep => fields.push(Field::Enum(0, 2)),
        Time::Server => fields.push(Field::Enum(1, 2)),
        Time::Client(seconds, nanoseconds) => {
            fields.push(Field::Enum(2, 2));
            fields.push(Field::Word(seconds));
            fields.push(Field::Word(nanoseconds));
        }
    }
}

fn attribute_fields(fields: &mut Vec<Field>, attributes: &Attributes) {
    for value in [attributes.mode, attributes.uid, attributes.gid] {
        fields.push(Field::Boolean(value.is_some()));
        fields.extend(value.map(Field::Word));
    }
    fields.push(Field::Boolean(attributes.size.is_some()));
    fields.extend(attributes.size.map(Field::Hyper));
    time_fields(fields, attributes.atime);
    time_fields(fields, attributes.mtime);
}

impl Request {
    pub fn procedure(&self) -> u32 {
        match self {
            Request::Null => procedure::NULL,
            Request::Getattr { .. } => procedure::GETATTR,
            Request::Setattr { .. } => procedure::SETATTR,
            Request::Lookup { .. } => procedure::LOOKUP,
            Request::Access { .. } => procedure::ACCESS,
            Request::Read { .. } => procedure::READ,
            Request::Write { .. } => procedure::WRITE,
            Request::Create { .. } => procedure::CREATE,
            Request::Mkdir { .. } => procedure::MKDIR,
            Request::Remove { .. } => procedure::REMOVE,
            Request::Rmdir { .. } => procedure::RMDIR,
            Request::Rename { .. } => procedure::RENAME,
            Request::Link { .. } => procedure::LINK,
            Request::Readdir { .. } => procedure::READDIR,
            Request::Fsstat { .. } => procedure::FSSTAT,
            Request::Fsinfo { .. } => procedure::FSINFO,
            Request::Pathconf { .. } => procedure::PATHCONF,
            Request::Commit { .. } => procedure::COMMIT,
            Request::Other { procedure, .. } => *procedure,
        }
    }

    pub fn fields(&self) -> Vec<Field> {
        let mut fields = Vec::new();
        match self {
            Request::Null => {}
            Request::Getattr { object }
            | Request::Fsstat { object }
            | Request::Fsinfo { object }
            | Request::Pathconf { object } => fields.push(Field::Handle(object.clone())),
            Request::Setattr {
                object,
                attributes,
                guard,
            } => {
                fields.push(Field::Handle(object.clone()));
                attribute_fields(&mut fields, attributes);
                fields.push(Field::Boolean(guard.is_some()));
                if let Some((seconds, nanoseconds)) = guard {
                    fields.push(Field::Word(*seconds));
                    fields.push(Field::Word(*nanoseconds));
                }
            }
            Request::Lookup { directory, name }
            | Request::Remove { directory, name }
            | Request::Rmdir { directory, name } => {
                fields.push(Field::Handle(directory.clone()));
                fields.push(Field::Text(name.clone()));
            }
            Request::Access { object, access } => {
                fields.push(Field::Handle(object.clone()));
                fields.push(Field::Word(*access));
            }
            Request::Read {
                file,
                offset,
                count,
            }
            | Request::Commit {
                file,
                offset,
                count,
            } => {
                fields.push(Field::Handle(file.clone()));
                fields.push(Field::Hyper(*offset));
                fields.push(Field::Word(*count));
            }
            Request::Write {
                file,
                offset,
                count,
                stable,
                data,
            } => {
                fields.push(Field::Handle(file.clone()));
                fields.push(Field::Hyper(*offset));
                fields.push(Field::Word(*count));
                fields.push(Field::Enum(*stable, 2));
                fields.push(Field::Text(data.clone()));
            }
            Request::Create {
                directory,
                name,
                how,
            } => {
                fields.push(Field::Handle(directory.clone()));
                fields.push(Field::Text(name.clone()));
                match how {
                    How::Unchecked(attributes) => {
                        fields.push(Field::Enum(0, 2));
                        attribute_fields(&mut fields, attributes);
                    }
                    How::Guarded(attributes) => {
                        fields.push(Field::Enum(1, 2));
                        attribute_fields(&mut fields, attributes);
                    }
                    How::Exclusive(verifier) => {
                        fields.push(Field::Enum(2, 2));
                        fields.push(Field::Fixed(*verifier));
                    }
                }
            }
            Request::Mkdir {
                directory,
                name,
                attributes,
            } => {
                fields.push(Field::Handle(directory.clone()));
                fields.push(Field::Text(name.clone()));
                attribute_fields(&mut fields, attributes);
            }
            Request::Rename {
                from,
                from_name,
                to,
                to_name,
            } => {
                fields.push(Field::Handle(from.clone()));
                fields.push(Field::Text(from_name.clone()));
                fields.push(Field::Handle(to.clone()));
                fields.push(Field::Text(to_name.clone()));
            }
            Request::Link {
                file,
                directory,
                name,
            } => {
                fields.push(Field::Handle(file.clone()));
                fields.push(Field::Handle(directory.clone()));
                fields.push(Field::Text(name.clone()));
            }
            Request::Readdir {
                directory,
                cookie,
                verifier,
                count,
            } => {
                fields.push(Field::Handle(directory.clone()));
                fields.push(Field::Hyper(*cookie));
                fields.push(Field::Fixed(*verifier));
                fields.push(Field::Word(*count));
            }
            Request::Other { arguments, .. } => fields.push(Field::Raw(arguments.clone())),
        }
        fields
    }

    /// The whole call with a header of two empty authenticators.
    pub fn call(&self, xid: u32) -> Vec<u8> {
        let header = Header::new(xid, self.procedure());
        header.call(&encode(&self.fields()))
    }
}

/// The header of a call.
#[derive(Clone, Debug)]
pub struct Header {
    pub xid: u32,
    pub kind: u32,
    pub rpc_version: u32,
    pub program: u32,
    pub version: u32,
    pub procedure: u32,
    /// Flavor and body.
    pub credential: (u32, Vec<u8>),
    pub verifier: (u32, Vec<u8>),
}

impl Header {
    pub fn new(xid: u32, procedure: u32) -> Header {
        Header {
            xid,
            kind: message::CALL,
            rpc_version: message::RPC_VERSION,
            program: message::PROGRAM,
            version: message::VERSION,
            procedure,
            credential: (0, Vec::new()),
            verifier: (0, Vec::new()),
        }
    }

    pub fn encode(&self) -> Vec<u8> {
        let mut bytes = Vec::new();
        for word in [
            self.xid,
            self.kind,
            self.rpc_version,
            self.program,
            self.version,
            self.procedure,
        ] {
            bytes.extend(word.to_be_bytes());
        }
        for (flavor, body) in [&self.credential, &self.verifier] {
            bytes.extend(flavor.to_be_bytes());
            opaque(&mut bytes, body);
        }
        bytes
    }

    pub fn call(&self, arguments: &[u8]) -> Vec<u8> {
        let mut bytes = self.encode();
        bytes.extend(arguments);
        bytes
    }
}

/// Every way to spoil the arguments that this module knows, each with a name
/// for the kind. A later field is spoiled only after sound fields.
pub fn malformed(fields: &[Field]) -> Vec<(&'static str, Vec<u8>)> {
    let mut all = Vec::new();
    let sound = encode(fields);
    for extra in 1..=4 {
        let mut bytes = sound.clone();
        bytes.resize(sound.len() + extra, 0);
        all.push(("bytes left over", bytes));
    }
    for (index, field) in fields.iter().enumerate() {
        let before = encode(&fields[..index]);
        let after = encode(&fields[index + 1..]);
        let mut own = Vec::new();
        field.encode(&mut own);
        let mut spoil = |kind: &'static str, middle: &[u8]| {
            let mut bytes = before.clone();
            bytes.extend(middle);
            bytes.extend(&after);
            all.push((kind, bytes));
        };
        match field {
            Field::Boolean(_) => {
                spoil("boolean over 1", &2u32.to_be_bytes());
                spoil("boolean over 1", &0x0100_0000u32.to_be_bytes());
            }
            Field::Enum(_, last) => {
                spoil("unknown enum", &(last + 1).to_be_bytes());
                spoil("unknown enum", &u32::MAX.to_be_bytes());
            }
            Field::Handle(value) => {
                for length in [65, 66, 68, 400] {
                    let mut long = Vec::new();
                    opaque(&mut long, &vec![7; length]);
                    spoil("handle over 64 bytes", &long);
                }
                spoil_length(value, &mut spoil);
            }
            Field::Text(value) => spoil_length(value, &mut spoil),
            Field::Word(_) | Field::Hyper(_) | Field::Fixed(_) | Field::Raw(_) => {}
        }
        // The field cut short at its start, inside and before its last byte.
        for kept in [0, own.len() / 2, own.len().saturating_sub(1)] {
            if kept < own.len() {
                let mut bytes = before.clone();
                bytes.extend(&own[..kept]);
                all.push(("cut short", bytes));
            }
        }
    }
    all
}

/// Spoils the length of a field of variable length.
fn spoil_length(value: &[u8], spoil: &mut impl FnMut(&'static str, &[u8])) {
    for length in [u32::MAX, u32::MAX - 3, 0x8000_0000, 9000] {
        let mut own = length.to_be_bytes().to_vec();
        own.extend(value);
        spoil("length past the end", &own);
    }
}
