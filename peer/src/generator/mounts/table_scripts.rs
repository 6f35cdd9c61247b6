//! Runs written out by hand: tables that pass their check and tables that do
//! not, and stores that do not.

use super::super::rules::mount as rule;
use super::super::scripts::Runs;
use super::tables::{self, row_at, Row, Rows};
use super::*;
use crate::layout::put_word;
use crate::mount_table::{row_field, MAX_PATH, ROWS, ROW_BYTES, TABLE_BYTES};

/// Every run about tables and stores.
pub fn all(runs: &mut Runs<'_>) {
    good(runs);
    damaged(runs);
    twice(runs);
    sizes(runs);
    stores(runs);
}

/// What NULL answers with this table.
fn null_with(gate: &mut Gateway<'_>, table: &[u8]) -> u32 {
    gate.lane.driver.set_table(table);
    let outcome = gate.plain(mount_procedure::NULL);
    assert!(gate.lane.driver.table() == table);
    outcome.answer.number
}

fn good_table(gate: &mut Gateway<'_>, rows: &[Row], label: &str) {
    let rows: Rows = rows.iter().cloned().map(Some).collect();
    assert_eq!(null_with(gate, &tables::write(&rows)), 0);
    gate.rule(label);
}

/// Tables that pass.
fn good(runs: &mut Runs<'_>) {
    let mut gate = Gateway::new(runs.open("good tables", (2, 2, 0)));
    let longest = [b'/'; MAX_PATH];
    good_table(&mut gate, &[Row::new(1, &longest)], rule::GOOD_LONGEST);
    good_table(&mut gate, &[Row::new(1, b"/")], rule::GOOD_SHORTEST);
    let bytes = [
        Row::new(1, b"/\0"),
        Row::new(1, b"/\0\0"),
        Row::new(1, b"/\xFF//\0x\0"),
        Row::new(1, b"//"),
    ];
    good_table(&mut gate, &bytes, rule::GOOD_BYTES);
    let hosts: Vec<Row> = (0..ROWS).map(|at| Row::new(at as u32, b"/same")).collect();
    good_table(&mut gate, &hosts, rule::GOOD_HOSTS);
    let hosts = [0, 1, 0x0100_0000, u32::MAX].map(|host| Row::new(host, &longest));
    good_table(&mut gate, &hosts, rule::GOOD_HOSTS);
    let prefixes: Vec<Row> = (1..=ROWS).map(|at| Row::new(1, &longest[..at])).collect();
    good_table(&mut gate, &prefixes, rule::GOOD_PREFIX);
    let long: Vec<Row> = (0..ROWS)
        .map(|at| Row::new(1, &longest[..MAX_PATH - at]))
        .collect();
    good_table(&mut gate, &long, rule::GOOD_PREFIX);
    good_table(
        &mut gate,
        &alike_rows(1, MAX_PATH - 1),
        rule::GOOD_LAST_BYTE,
    );
    good_table(&mut gate, &alike_rows(1, 1), rule::GOOD_FIRST_BYTE);
    for at in [2, 7, 8, 31, 32, 500, 1016, 1022] {
        good_table(&mut gate, &alike_rows(0, at), rule::GOOD_LAST_BYTE);
    }
    // Two rows whose words are exchanged.
    let mut exchanged = longest;
    exchanged[8..16].copy_from_slice(b"12345678");
    let mut other = longest;
    other[16..24].copy_from_slice(b"12345678");
    let mut third = longest;
    third[40..48].copy_from_slice(b"12345678");
    let rows = [exchanged, other, third].map(|path| Row::new(1, &path));
    good_table(&mut gate, &rows, rule::GOOD_BYTES);
    let mut gaps = vec![None; ROWS];
    for at in [3, 8, 9, 31] {
        gaps[at] = Some(Row::new(9, format!("/{at}").as_bytes()));
    }
    assert_eq!(null_with(&mut gate, &tables::write(&gaps)), 0);
    gate.rule(rule::GOOD_GAPS);
}

/// A table with rows 0, 1 and 5, and one byte changed.
fn damaged(runs: &mut Runs<'_>) {
    let mut gate = Gateway::new(runs.open("damaged tables", (2, 2, 0)));
    let mut rows = vec![None; ROWS];
    rows[0] = Some(Row::new(1, b"/"));
    rows[1] = Some(Row::new(2, b"/path/of/33/bytes/and/some/more/!"));
    rows[5] = Some(Row::new(0, b"/five"));
    let sound = tables::write(&rows);
    let used = [(0, 1), (1, 33), (5, 5)];
    let free = [2, 6, 30, 31];
    let changed = |gate: &mut Gateway<'_>, at: usize, byte: u8| {
        let mut table = sound.clone();
        assert_ne!(table[at], byte);
        table[at] = byte;
        assert_eq!(null_with(gate, &table), 12);
    };
    for row in free {
        for at in 0..4 {
            changed(&mut gate, row_at(row) + at, 1);
        }
        for at in [0, 1, 500, 511, 512, MAX_PATH - 2, MAX_PATH - 1] {
            changed(&mut gate, row_at(row) + row_field::PATH + at, 0x80);
            changed(&mut gate, row_at(row) + row_field::PATH + at, b'/');
        }
    }
    gate.rules(&[rule::BAD_FREE_HOST, rule::BAD_FREE_PATH]);
    for (row, length) in used {
        let path = row_at(row) + row_field::PATH;
        changed(&mut gate, path + length, 1);
        changed(&mut gate, path + length, b'/');
        gate.rule(rule::BAD_BEHIND);
        for at in length..length + 32 {
            changed(&mut gate, path + at, 0x40);
        }
        gate.rule(rule::BAD_EVERY_PLACE);
        changed(&mut gate, row_at(row) + ROW_BYTES - 1, 1);
        changed(&mut gate, path + 600, 1);
        gate.rule(rule::BAD_LAST);
        for byte in [b'a', b'.', 0x2E, 0xAF, 0x30] {
            changed(&mut gate, path, byte);
        }
        gate.rule(rule::BAD_SLASH);
        changed(&mut gate, path, 0);
        gate.rule(rule::BAD_ZERO_PATH);
    }
    let lengths = [
        (1025, rule::BAD_LENGTH),
        (1028, rule::BAD_LENGTH),
        (1032, rule::BAD_LENGTH),
        (u32::MAX, rule::BAD_HUGE),
        (0x8000_0000, rule::BAD_HUGE),
        (0x0001_0001, rule::BAD_HUGE),
        (0x0100_0000, rule::BAD_HUGE),
    ];
    for (length, label) in lengths {
        for row in [0, 5, 31] {
            let mut table = sound.clone();
            put_word(&mut table, row_at(row) + row_field::LENGTH, length);
            table[row_at(row) + row_field::PATH] = b'/';
            assert_eq!(null_with(&mut gate, &table), 12);
        }
        gate.rule(label);
    }
    // A path that seems too short, and one that is cut to nothing.
    for (row, length) in [(1, 32), (1, 1), (5, 4), (5, 0), (0, 0)] {
        let mut table = sound.clone();
        put_word(&mut table, row_at(row) + row_field::LENGTH, length);
        assert_eq!(null_with(&mut gate, &table), 12);
    }
    // A longer length is good: zeros inside a path are not judged.
    let mut table = sound.clone();
    put_word(&mut table, row_at(5) + row_field::LENGTH, 1024);
    assert_eq!(null_with(&mut gate, &table), 0);
    gate.rule(rule::GOOD_BYTES);
    let mut table = sound.clone();
    table[TABLE_BYTES - 1] = 1;
    gate.lane.driver.set_table(&table);
    for procedure in 0..=mount_procedure::LAST {
        let path: Option<&[u8]> = rule::WITH_PATH.contains(&procedure).then_some(b"/");
        let bytes = call(8, procedure, path);
        gate.refused(&bytes, 12);
    }
    gate.refused(&call(8, 6, None), 12);
    gate.rule(rule::BAD_FOR_ALL);
}

/// Tables with a pair twice.
fn twice(runs: &mut Runs<'_>) {
    let mut gate = Gateway::new(runs.open("a pair twice", (2, 2, 0)));
    let try_twice = |gate: &mut Gateway<'_>, rows: &[Row], first: usize, second: usize| {
        let mut rows: Rows = rows.iter().cloned().map(Some).collect();
        rows.resize(ROWS, None);
        rows[second] = rows[first].clone();
        assert_eq!(null_with(gate, &tables::write(&rows)), 12);
    };
    let numbered = numbered_rows(7, ROWS);
    for first in [0, 1, 15, 30] {
        try_twice(&mut gate, &numbered, first, first + 1);
        try_twice(&mut gate, &numbered[..first + 1], first, first + 1);
    }
    gate.rule(rule::BAD_NEIGHBOURS);
    try_twice(&mut gate, &numbered, 0, 31);
    try_twice(&mut gate, &numbered[..1], 0, 31);
    gate.rule(rule::BAD_ENDS);
    let alike = alike_rows(7, MAX_PATH - 1);
    for (first, second) in [(0, 1), (0, 31), (30, 31), (13, 22)] {
        try_twice(&mut gate, &alike, first, second);
    }
    gate.rule(rule::BAD_LONG_TWICE);
    let zero = [Row::new(0, b"/"), Row::new(0, b"/0"), Row::new(1, b"/")];
    try_twice(&mut gate, &zero, 0, 1);
    try_twice(&mut gate, &zero, 0, 3);
    gate.rule(rule::BAD_ZERO_HOST);
    // The same paths with other hosts are good.
    let mut rows = numbered;
    rows[31] = Row::new(8, &rows[0].path);
    rows[1] = Row::new(6, &rows[0].path);
    good_table(&mut gate, &rows, rule::GOOD_HOSTS);
}

/// Tables of other lengths.
fn sizes(runs: &mut Runs<'_>) {
    let mut gate = Gateway::new(runs.open("lengths of tables", (2, 2, 0)));
    for rows in [0, 3] {
        let rows: Rows = numbered_rows(4, rows).into_iter().map(Some).collect();
        let sound = tables::write(&rows);
        for length in [
            0,
            1,
            8,
            1031,
            1032,
            31 * 1032,
            33_020,
            33_023,
            33_025,
            33_028,
            33_056,
        ] {
            let mut table = sound.clone();
            table.resize(length, 0);
            assert_eq!(null_with(&mut gate, &table), 12);
        }
        assert_eq!(null_with(&mut gate, &sound), 0);
    }
    gate.rule(rule::BAD_SIZE);
}

/// Stores that fail their check.
fn stores(runs: &mut Runs<'_>) {
    let mut gate = Gateway::new(runs.open("damaged stores", (4, 4, 2)));
    let root = gate.lane.root();
    let directory = gate.lane.mkdir(&root, b"a");
    gate.lane.create(&root, b"f", 600);
    gate.set_rows(&numbered_rows(HOST, 3));
    let mount = call(1, mount_procedure::MNT, Some(b"/a"));
    let (object, name) = (gate.lane.object_at(1), gate.lane.name_at(0));
    let count = gate.lane.shape.name_count_at();
    for at in [
        0,
        8,
        count,
        object,
        object + 8,
        name,
        name + 4,
        name + 8,
        name + 43,
    ] {
        let kept = gate.lane.driver.store()[at];
        gate.lane.driver.patch(at, &[kept ^ 0x41]);
        gate.refused(&mount, 1);
        let null = call(2, mount_procedure::NULL, None);
        gate.refused(&null, 1);
        gate.lane.driver.patch(at, &[kept]);
    }
    gate.rule(rule::DAMAGED_STORE);
    gate.mnt_to(b"/a", &directory);
    assert_eq!(gate.used(), 4);
}
