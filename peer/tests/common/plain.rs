//! The store checks a second time, plain and slow.

/// The check of a store, without regard to speed.
pub fn plain_check(store: &[u8]) -> bool {
    sound_image(store, 92, 16)
}

/// The check of an image in the layout of document 01.
pub fn plain_old_check(image: &[u8]) -> bool {
    sound_image(image, 80, 1)
}

/// What documents 01 and 02 demand of an image whose object records have this
/// length. A verifier and a flag follow the 80 bytes of a record where it is
/// longer. A file has at most so many names.
fn sound_image(store: &[u8], record_bytes: usize, most_names: usize) -> bool {
    let get = |at: usize| -> Option<u32> {
        store
            .get(at..at + 4)
            .map(|field| u32::from_be_bytes(field.try_into().unwrap()))
    };
    let (Some(1), Some(objects)) = (get(0), get(8)) else {
        return false;
    };
    if !(1..=64).contains(&objects) {
        return false;
    }
    let objects = objects as usize;
    let Some(names) = get(12 + record_bytes * objects) else {
        return false;
    };
    if names > 128 {
        return false;
    }
    let names = names as usize;
    let Some(blocks) = get(16 + record_bytes * objects + 44 * names) else {
        return false;
    };
    if blocks > 1024 {
        return false;
    }
    let blocks = blocks as usize;
    if store.len() != 20 + record_bytes * objects + 44 * names + 512 * blocks {
        return false;
    }
    let object = |number: usize| &store[12 + record_bytes * number..][..record_bytes];
    let name = |number: usize| {
        let at = 16 + record_bytes * objects + 44 * number;
        &store[at..at + 44]
    };
    let number =
        |record: &[u8], at: usize| u32::from_be_bytes(record[at..at + 4].try_into().unwrap());
    let kind = |index: u32| -> u32 {
        if (index as usize) < objects {
            number(object(index as usize), 0)
        } else {
            0
        }
    };
    if kind(0) != 2 {
        return false;
    }
    let mut used = Vec::new();
    for index in 0..objects {
        let record = object(index);
        match number(record, 0) {
            0 => {
                for (at, &byte) in record.iter().enumerate() {
                    if byte != 0 && !(4..8).contains(&at) {
                        return false;
                    }
                }
            }
            kind @ (1 | 2) => {
                if number(record, 4) == 4_294_967_295 || number(record, 8) > 4095 {
                    return false;
                }
                for at in [28, 36, 44] {
                    if number(record, at) >= 1_000_000_000 {
                        return false;
                    }
                }
                if let [verifier @ .., 0, 0, 0, flag] = &record[80..] {
                    let none = verifier.iter().all(|&byte| byte == 0);
                    let kept = kind == 1 && *flag == 1;
                    if !kept && (*flag != 0 || !none) {
                        return false;
                    }
                } else if record.len() > 80 {
                    return false;
                }
                let size = number(record, 20);
                if size > 8192 || kind == 2 && size != 0 {
                    return false;
                }
                let count = (size as usize).div_ceil(512);
                for place in 0..16 {
                    let block =
                        u16::from_be_bytes([record[48 + 2 * place], record[49 + 2 * place]]);
                    if place < count {
                        if usize::from(block) >= blocks {
                            return false;
                        }
                        used.push(block);
                    } else if block != 65535 {
                        return false;
                    }
                }
            }
            _ => return false,
        }
    }
    for (at, block) in used.iter().enumerate() {
        if used[..at].contains(block) {
            return false;
        }
    }
    let mut times_named = vec![0; objects];
    let mut parent = vec![0; objects];
    for index in 0..names {
        let record = name(index);
        let length = number(record, 8) as usize;
        if length == 0 {
            if record.iter().any(|&byte| byte != 0) {
                return false;
            }
            continue;
        }
        if length > 32 {
            return false;
        }
        let (text, padding) = record[12..].split_at(length);
        if padding.iter().any(|&byte| byte != 0)
            || text.contains(&0)
            || text.contains(&0x2F)
            || text == b"."
            || text == b".."
        {
            return false;
        }
        let (directory, child) = (number(record, 0), number(record, 4));
        if kind(directory) != 2 || kind(child) == 0 {
            return false;
        }
        for other in 0..index {
            let other = name(other);
            if number(other, 8) as usize == length
                && number(other, 0) == directory
                && &other[12..12 + length] == text
            {
                return false;
            }
        }
        times_named[child as usize] += 1;
        parent[child as usize] = directory as usize;
    }
    for (index, &times) in times_named.iter().enumerate() {
        let wanted = match kind(index as u32) {
            1 => 1..=most_names,
            2 if index > 0 => 1..=1,
            _ => 0..=0,
        };
        if !wanted.contains(&times) {
            return false;
        }
        if times > 0 {
            let mut at = index;
            for _ in 0..objects {
                at = parent[at];
            }
            if at != 0 {
                return false;
            }
        }
    }
    true
}
