//! Reading a valid store from outside: what is live and what is named.

use super::encode::handle;
use crate::layout::*;

/// A live object.
#[derive(Clone, Debug)]
pub struct Seen {
    pub object: usize,
    pub handle: Vec<u8>,
    pub directory: bool,
    pub size: u32,
    pub ctime: (u32, u32),
    /// The verifier that a file keeps.
    pub verifier: Option<[u8; 8]>,
}

/// A used name record.
#[derive(Clone, Debug)]
pub struct Named {
    pub record: usize,
    pub directory: usize,
    pub child: usize,
    pub name: Vec<u8>,
}

/// The contents of a valid store.
#[derive(Clone, Debug)]
pub struct View {
    pub shape: Shape,
    pub stamp: u32,
    pub live: Vec<Seen>,
    pub free: Vec<usize>,
    pub names: Vec<Named>,
}

impl View {
    /// `None` for a store that fails its check.
    pub fn of(store: &[u8]) -> Option<View> {
        if crate::check(store).number != 0 {
            return None;
        }
        let shape = Shape::read(store)?;
        let stamp = word(store, STAMP_AT);
        let mut live = Vec::new();
        let mut free = Vec::new();
        for object in 0..shape.objects {
            let at = shape.object_at(Object(object));
            let field = |offset: usize| word(store, at + offset);
            let kind = field(object_field::TYPE);
            if kind == FREE {
                free.push(object);
                continue;
            }
            live.push(Seen {
                object,
                handle: handle(stamp, object as u32, field(object_field::GENERATION)),
                directory: kind == DIRECTORY,
                size: field(object_field::SIZE),
                ctime: (field(object_field::CTIME), field(object_field::CTIME + 4)),
                verifier: (field(object_field::FLAG) == 1)
                    .then(|| store[at + object_field::VERIFIER..].first_chunk().copied())
                    .flatten(),
            });
        }
        let mut names = Vec::new();
        for record in 0..shape.names {
            let at = shape.name_at(NameRecord(record));
            let length = word(store, at + name_field::LENGTH) as usize;
            if length > 0 {
                let text = at + name_field::TEXT;
                names.push(Named {
                    record,
                    directory: word(store, at + name_field::DIRECTORY) as usize,
                    child: word(store, at + name_field::CHILD) as usize,
                    name: store[text..text + length].to_vec(),
                });
            }
        }
        Some(View {
            shape,
            stamp,
            live,
            free,
            names,
        })
    }

    /// The handle of a live object.
    pub fn handle(&self, object: usize) -> Option<&[u8]> {
        self.live
            .iter()
            .find(|seen| seen.object == object)
            .map(|seen| &seen.handle[..])
    }

    /// The name record of a name in a directory.
    pub fn find(&self, directory: &[u8], name: &[u8]) -> Option<&Named> {
        self.names
            .iter()
            .find(|named| named.name == name && self.handle(named.directory) == Some(directory))
    }

    /// How many names an object has.
    pub fn links(&self, object: usize) -> usize {
        let names = self.names.iter();
        names.filter(|named| named.child == object).count()
    }

    /// Whether the object holds a name.
    pub fn is_occupied(&self, object: usize) -> bool {
        self.names.iter().any(|named| named.directory == object)
    }

    /// Whether a directory is the given one or lies below it.
    pub fn is_within(&self, directory: usize, top: usize) -> bool {
        let above = self.names.iter().find(|named| named.child == directory);
        directory == top || above.is_some_and(|named| self.is_within(named.directory, top))
    }

    /// Whether the object is a live directory.
    pub fn is_directory(&self, object: usize) -> bool {
        self.live
            .iter()
            .any(|seen| seen.object == object && seen.directory)
    }

    /// Whether the handle is one of a live object.
    pub fn is_live(&self, handle: &[u8]) -> bool {
        self.live.iter().any(|seen| seen.handle == handle)
    }
}
