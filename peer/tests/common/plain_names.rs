//! REMOVE, RENAME and LINK a second time, plain and slow: what a well-formed
//! call makes of a valid store, and the result that it answers.

/// A directory's handle and a name in it, as a call gives them.
struct Place {
    handle: Vec<u8>,
    name: Vec<u8>,
}

/// A valid store in pieces.
#[derive(Clone)]
struct Store {
    stamp: Vec<u8>,
    objects: Vec<Vec<u8>>,
    names: Vec<Vec<u8>>,
    blocks: Vec<Vec<u8>>,
}

fn get(bytes: &[u8], at: usize) -> u32 {
    u32::from_be_bytes(bytes[at..at + 4].try_into().unwrap())
}

fn put(bytes: &mut [u8], at: usize, value: u32) {
    bytes[at..at + 4].copy_from_slice(&value.to_be_bytes());
}

/// Takes a length and so many bytes with their padding.
fn opaque(bytes: &mut &[u8]) -> Vec<u8> {
    let length = get(bytes, 0) as usize;
    let value = bytes[4..4 + length].to_vec();
    *bytes = &bytes[4 + length.next_multiple_of(4)..];
    value
}

/// Takes a count and so many records of this length.
fn section(bytes: &mut &[u8], length: usize) -> Vec<Vec<u8>> {
    let count = get(bytes, 0) as usize;
    let (records, rest) = bytes[4..].split_at(count * length);
    *bytes = rest;
    records.chunks(length).map(<[u8]>::to_vec).collect()
}

impl Store {
    fn read(bytes: &[u8]) -> Store {
        let mut left = bytes;
        Store {
            stamp: section(&mut left, 4).remove(0),
            objects: section(&mut left, 92),
            names: section(&mut left, 44),
            blocks: section(&mut left, 512),
        }
    }

    fn bytes(&self) -> Vec<u8> {
        let mut bytes = vec![0, 0, 0, 1];
        bytes.extend(&self.stamp);
        for records in [&self.objects, &self.names, &self.blocks] {
            bytes.extend((records.len() as u32).to_be_bytes());
            bytes.extend(records.concat());
        }
        bytes
    }

    fn is_directory(&self, object: usize) -> bool {
        get(&self.objects[object], 0) == 2
    }

    /// The object of a handle.
    fn resolve(&self, handle: &[u8]) -> Result<usize, u32> {
        if handle.len() != 12 || get(handle, 4) as usize >= self.objects.len() {
            return Err(10001);
        }
        let object = get(handle, 4) as usize;
        let record = &self.objects[object];
        if handle[..4] == self.stamp && get(record, 0) != 0 && handle[8..] == record[4..8] {
            Ok(object)
        } else {
            Err(70)
        }
    }

    /// The used name records.
    fn used(&self) -> impl Iterator<Item = (usize, &Vec<u8>)> {
        let records = self.names.iter().enumerate();
        records.filter(|(_, record)| get(record, 8) != 0)
    }

    fn find(&self, directory: usize, name: &[u8]) -> Option<usize> {
        let mut used = self.used();
        used.find(|(_, record)| {
            get(record, 0) as usize == directory
                && get(record, 8) as usize == name.len()
                && record[12..12 + name.len()] == *name
        })
        .map(|(number, _)| number)
    }

    fn child(&self, record: usize) -> usize {
        get(&self.names[record], 4) as usize
    }

    /// How many names an object has.
    fn names_of(&self, object: usize) -> usize {
        let used = self.used();
        used.filter(|(number, _)| self.child(*number) == object)
            .count()
    }

    /// Whether an object is the given one or has it somewhere above.
    fn is_within(&self, object: usize, top: usize) -> bool {
        object == top
            || self.used().any(|(number, record)| {
                self.child(number) == object && self.is_within(get(record, 0) as usize, top)
            })
    }

    /// The attributes of a live object as they are sent.
    fn attributes(&self, object: usize) -> Vec<u8> {
        let record = &self.objects[object];
        let (links, size, used) = if self.is_directory(object) {
            let inner = self.used().filter(|(number, record)| {
                get(record, 0) as usize == object && self.is_directory(self.child(*number))
            });
            (2 + inner.count() as u32, 512, 0)
        } else {
            let size = get(record, 20);
            let names = self.names_of(object) as u32;
            (names, size, size.div_ceil(512) * 512)
        };
        let mut bytes = record[..4].to_vec();
        bytes.extend(&record[8..12]);
        bytes.extend(links.to_be_bytes());
        bytes.extend(&record[12..20]);
        for number in [u64::from(size), u64::from(used), 0] {
            bytes.extend(number.to_be_bytes());
        }
        bytes.extend([0; 4]);
        bytes.extend(&self.stamp);
        bytes.extend((object as u64 + 1).to_be_bytes());
        bytes.extend(&record[24..48]);
        bytes
    }

    /// What a reply says of a handle before and after a call.
    fn change(&self, after: &Store, handle: &[u8]) -> Vec<u8> {
        let Ok(object) = self.resolve(handle) else {
            return vec![0; 8];
        };
        let before = self.attributes(object);
        let mut bytes = vec![0, 0, 0, 1];
        bytes.extend(&before[20..28]);
        bytes.extend(&before[68..84]);
        bytes.extend([0, 0, 0, 1]);
        bytes.extend(after.attributes(object));
        bytes
    }

    /// The directory of a handle.
    fn directory(&self, handle: &[u8]) -> Result<usize, u32> {
        let directory = self.resolve(handle)?;
        if self.is_directory(directory) {
            Ok(directory)
        } else {
            Err(20)
        }
    }

    fn set_name(&mut self, record: usize, directory: usize, child: usize, text: &[u8]) {
        let name = &mut self.names[record];
        name.fill(0);
        put(name, 0, directory as u32);
        put(name, 4, child as u32);
        put(name, 8, text.len() as u32);
        name[12..12 + text.len()].copy_from_slice(text);
    }

    /// Sets mtime and ctime of directories.
    fn touch(&mut self, directories: &[usize], clock: &[u8]) {
        for &directory in directories {
            self.objects[directory][32..40].copy_from_slice(clock);
            self.objects[directory][40..48].copy_from_slice(clock);
        }
    }

    /// Takes a name away; with its last name the object goes too.
    fn unname(&mut self, record: usize, clock: &[u8]) {
        let object = self.child(record);
        self.names[record].fill(0);
        if self.names_of(object) > 0 {
            self.objects[object][40..48].copy_from_slice(clock);
            return;
        }
        let generation = get(&self.objects[object], 4) + 1;
        let blocks = get(&self.objects[object], 20).div_ceil(512) as usize;
        for place in 0..blocks {
            let at = 48 + 2 * place;
            let number = &self.objects[object][at..at + 2];
            let number = usize::from(number[0]) * 256 + usize::from(number[1]);
            self.blocks[number].fill(0);
        }
        self.objects[object].fill(0);
        put(&mut self.objects[object], 4, generation);
    }

    fn remove(&mut self, place: &Place, clock: &[u8]) -> Result<(), u32> {
        let directory = self.directory(&place.handle)?;
        sound_name(&place.name)?;
        if dots(&place.name) {
            return Err(13);
        }
        let record = self.find(directory, &place.name).ok_or(2u32)?;
        if self.is_directory(self.child(record)) {
            return Err(13);
        }
        self.unname(record, clock);
        self.touch(&[directory], clock);
        Ok(())
    }

    fn link(&mut self, file: &[u8], to: &Place, clock: &[u8]) -> Result<(), u32> {
        let file = self.resolve(file)?;
        if self.is_directory(file) {
            return Err(22);
        }
        let directory = self.directory(&to.handle)?;
        sound_name(&to.name)?;
        if dots(&to.name) || self.find(directory, &to.name).is_some() {
            return Err(17);
        }
        if self.names_of(file) == 16 {
            return Err(31);
        }
        let free = self.names.iter().position(|record| get(record, 8) == 0);
        self.set_name(free.ok_or(28u32)?, directory, file, &to.name);
        self.objects[file][40..48].copy_from_slice(clock);
        self.touch(&[directory], clock);
        Ok(())
    }

    fn rename(&mut self, from: &Place, to: &Place, clock: &[u8]) -> Result<(), u32> {
        let mut directories = [0; 2];
        for (directory, place) in directories.iter_mut().zip([from, to]) {
            *directory = self.directory(&place.handle)?;
        }
        sound_name(&from.name)?;
        sound_name(&to.name)?;
        if dots(&from.name) || dots(&to.name) {
            return Err(22);
        }
        let record = self.find(directories[0], &from.name).ok_or(2u32)?;
        let moved = self.child(record);
        if self.is_within(directories[1], moved) {
            return Err(22);
        }
        if let Some(freed) = self.find(directories[1], &to.name) {
            let target = self.child(freed);
            if target == moved {
                return Ok(());
            }
            let empty = self
                .used()
                .all(|(_, record)| get(record, 0) as usize != target);
            if self.is_directory(moved) != self.is_directory(target) || !empty {
                return Err(17);
            }
            self.unname(freed, clock);
        }
        self.set_name(record, directories[1], moved, &to.name);
        self.objects[moved][40..48].copy_from_slice(clock);
        self.touch(&directories, clock);
        Ok(())
    }
}

fn sound_name(name: &[u8]) -> Result<(), u32> {
    if name.is_empty() {
        return Err(13);
    }
    if name.len() > 32 {
        return Err(63);
    }
    if name.contains(&0) || name.contains(&b'/') {
        return Err(13);
    }
    Ok(())
}

fn dots(name: &[u8]) -> bool {
    matches!(name, b"." | b"..")
}

/// The store after a REMOVE, RENAME or LINK, and the reply from its status on.
/// `None` for another procedure.
pub fn plain_names(
    store: &[u8],
    call: &[u8],
    seconds: u32,
    nanoseconds: u32,
) -> Option<(Vec<u8>, Vec<u8>)> {
    let procedure = get(call, 20);
    if ![12, 14, 15].contains(&procedure) {
        return None;
    }
    let mut left = &call[24..];
    for _ in 0..2 {
        left = &left[4..];
        opaque(&mut left);
    }
    let file = (procedure == 15).then(|| opaque(&mut left));
    let mut places = Vec::new();
    while !left.is_empty() {
        places.push(Place {
            handle: opaque(&mut left),
            name: opaque(&mut left),
        });
    }
    let clock = [seconds.to_be_bytes(), nanoseconds.to_be_bytes()].concat();
    let before = Store::read(store);
    let mut after = before.clone();
    let outcome = match (&file, &places[..]) {
        (None, [place]) => after.remove(place, &clock),
        (None, [from, to]) => after.rename(from, to, &clock),
        (Some(file), [to]) => after.link(file, to, &clock),
        _ => panic!("not the arguments of procedure {procedure}"),
    };
    let status = outcome.err().unwrap_or(0);
    let mut result = status.to_be_bytes().to_vec();
    if let Some(file) = file {
        match before.resolve(&file) {
            Ok(object) => {
                result.extend([0, 0, 0, 1]);
                result.extend(after.attributes(object));
            }
            Err(_) => result.extend([0; 4]),
        }
    }
    for place in &places {
        result.extend(before.change(&after, &place.handle));
    }
    Some((after.bytes(), result))
}
