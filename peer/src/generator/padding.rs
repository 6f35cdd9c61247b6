//! The pad bytes of calls: where they stand, and what may stand in them.

use std::ops::Range;

use super::encode::{Field, Header, Request};
use super::random::Random;

/// Places of the header's two padded fields.
pub const CREDENTIAL: usize = 0;
pub const VERIFIER: usize = 1;
/// The place of the first padded field of the arguments.
pub const ARGUMENTS: usize = 2;

/// A call, and where its pad bytes stand.
#[derive(Clone, Debug)]
pub struct Padded {
    pub bytes: Vec<u8>,
    /// The pad bytes of the credential, of the verifier and of each field of
    /// variable length in the arguments; some of these have none.
    pub places: Vec<Range<usize>>,
}

impl Padded {
    /// The call with zeros as pad bytes.
    pub fn new(header: &Header, fields: &[Field]) -> Padded {
        let mut bytes = header.encode();
        let credential = 32 + header.credential.1.len();
        let after = credential.next_multiple_of(4);
        let verifier = after + 8 + header.verifier.1.len();
        let mut places = vec![credential..after, verifier..bytes.len()];
        for field in fields {
            let start = bytes.len();
            field.encode(&mut bytes);
            if let Field::Handle(value) | Field::Text(value) = field {
                places.push(start + 4 + value.len()..bytes.len());
            }
        }
        Padded { bytes, places }
    }

    /// The call of a request, with a header of two empty authenticators.
    pub fn of(request: &Request, xid: u32) -> Padded {
        Padded::new(&Header::new(xid, request.procedure()), &request.fields())
    }

    /// How many pad bytes stand at a place.
    pub fn count(&self, place: usize) -> usize {
        self.places[place].len()
    }

    /// The places that have pad bytes.
    pub fn padded(&self) -> Vec<usize> {
        (0..self.places.len())
            .filter(|&place| self.count(place) > 0)
            .collect()
    }

    /// Puts these pad bytes at a place.
    pub fn fill(&mut self, place: usize, pads: &[u8]) {
        self.bytes[self.places[place].clone()].copy_from_slice(pads);
    }

    /// Puts zeros at every place.
    pub fn clear(&mut self) {
        for place in &self.places {
            self.bytes[place.clone()].fill(0);
        }
    }

    /// Puts pad bytes of any kind at every place.
    pub fn fill_all(&mut self, random: &mut Random) {
        for place in self.padded() {
            let kinds = leftovers(self.count(place), random);
            self.fill(place, &kinds[random.below(kinds.len())]);
        }
    }

    /// The call up to a place's padding, of which so many bytes are missing.
    pub fn cut(&self, place: usize, missing: usize) -> &[u8] {
        &self.bytes[..self.places[place].end - missing]
    }
}

/// Old memory in 1 to 3 pad bytes, one of each kind: all bits set, bytes like
/// those of names, some the rest of a longer one, one byte that is not zero at
/// each position, random ones.
pub fn leftovers(count: usize, random: &mut Random) -> Vec<Vec<u8>> {
    let texts = [b"\xFF\xFF\xFF", b"./.", b"../", b"012", b"bcd"];
    let mut kinds: Vec<Vec<u8>> = texts.map(|text| text[3 - count..].to_vec()).to_vec();
    for at in 0..count {
        let mut one = vec![0; count];
        one[at] = 1 << random.below(8);
        kinds.push(one);
    }
    let mut any = random.bytes(count);
    any[0] |= 1;
    kinds.push(any);
    kinds
}
