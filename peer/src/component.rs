//! One step along a path, by the rules of LOOKUP: LOOKUP itself, and each
//! component of a path that MNT takes.

use crate::check::Survey;
use crate::layout::{Object, MAX_NAME};
use crate::name::Text;
use crate::numbers::Status;
use crate::search::find;

/// NOTDIR unless the object is a directory.
#[inline]
pub fn want_directory(survey: &Survey, object: Object) -> Result<(), Status> {
    if survey.is_directory(object) {
        Ok(())
    } else {
        Err(Status::NOTDIR)
    }
}

/// The tests that every name passes; answers its text.
#[inline]
pub fn want_name(name: &[u8]) -> Result<Text, Status> {
    if name.is_empty() {
        return Err(Status::ACCES);
    }
    if name.len() > MAX_NAME {
        return Err(Status::NAMETOOLONG);
    }
    let text = Text::padded(name);
    if text.plain(name.len()) {
        Ok(text)
    } else {
        Err(Status::ACCES)
    }
}

/// The object to which a name leads from another object, in a checked store.
#[inline]
pub fn step(store: &[u8], survey: &Survey, from: Object, name: &[u8]) -> Result<Object, Status> {
    want_directory(survey, from)?;
    let text = want_name(name)?;
    if text.is_dot() {
        Ok(from)
    } else if text.is_dot_dot() {
        Ok(survey.parent(from))
    } else {
        let found = find(store, survey, from, name).ok_or(Status::NOENT)?;
        Ok(found.object)
    }
}
