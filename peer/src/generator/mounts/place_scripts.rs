//! Where MOUNT calls are broken: every item of the header and of the arguments.

use super::super::broken_calls::{Script, Sender};
use super::super::driver::Outcome;
use super::super::encode::{Header, Request};
use super::super::rules::{mount::possible, place as rule};
use super::super::scripts::places::faulty;
use super::super::scripts::Runs;
use super::*;
use crate::mount_table::TABLE_BYTES;

impl Sender for Gateway<'_> {
    fn deliver(&mut self, bytes: &[u8]) -> Outcome {
        self.raw(bytes)
    }

    fn note(&mut self, label: &str) {
        self.lane.driver.note(rules::PLACE_GROUP, label);
    }

    fn header(&self, procedure: u32) -> Header {
        header(7, procedure)
    }
}

/// Every run about places.
pub(super) fn all(runs: &mut Runs<'_>) {
    headers(runs);
    arguments(runs);
    nowhere(runs);
    earlier(runs);
}

fn headers(runs: &mut Runs<'_>) {
    let mut gate = Gateway::new(runs.open("places: headers", (1, 0, 0)));
    let mut script = Script::new(&mut gate, rule::mount());
    script.headers(mount_procedure::MNT, &fields(Some(b"/")));
    assert_eq!(gate.used(), 0);
}

/// The argument of a form.
fn fields_of(form: &rule::Form, path: &[u8]) -> Vec<Field> {
    fields((!form.items.is_empty()).then_some(path))
}

fn arguments(runs: &mut Runs<'_>) {
    let mut gate = Gateway::new(runs.open("places: arguments", (2, 2, 0)));
    gate.set_rows(&[Row::new(HOST, b"/"), Row::new(HOST, b"/abc")]);
    let table = gate.lane.driver.table().to_vec();
    let mut script = Script::new(&mut gate, rule::mount());
    for form in &rule::MOUNT_FORMS {
        script.arguments(form, &fields_of(form, b"/abc"));
    }
    for form in rule::MOUNT_FORMS {
        if !form.items.is_empty() {
            for path in [&b"/abcdef"[..], b"/a", b"/"] {
                script.pads(&form, &fields_of(&form, path));
            }
            for path in [&b""[..], b"x", b"/missing"] {
                script.cut_anywhere(form.procedure, &fields_of(&form, path));
            }
        }
    }
    assert!(gate.lane.driver.table() == table);
}

/// Answers with offset 0.
fn nowhere(runs: &mut Runs<'_>) {
    let mut gate = Gateway::new(runs.open("places: none", (3, 3, 0)));
    let root = gate.lane.root();
    gate.lane.create(&root, b"file", 0);
    for (path, status) in [
        (&b"/x"[..], Status::NOENT),
        (b"/a\0", Status::ACCES),
        (b"/file", Status::NOTDIR),
        (b"", Status::INVAL),
        (&[&b"/"[..], &[b'n'; 33]].concat(), Status::NAMETOOLONG),
    ] {
        assert_eq!(gate.mnt(path, status).answer.offset, 0);
    }
    gate.set_rows(&numbered_rows(HOST, 32));
    let full = gate.mnt(b"/", Status::SERVERFAULT);
    assert_eq!(full.answer.offset, 0);
    gate.note(rule::MNT_STATUSES);
    // Each entry sees the other's calls as those of another program.
    let nfs = Request::Null.call(7);
    let longer = [&nfs[..], b"\0"].concat();
    for call in [&nfs, &longer] {
        assert_eq!(gate.raw(call).answer.offset, 0);
    }
    let mount = call(7, mount_procedure::MNT, Some(b"/"));
    for length in 40..=mount.len() {
        let answer = gate.lane.deliver(&mount[..length]).answer;
        assert_eq!((answer.number, answer.offset), (0, 0));
    }
    gate.note(rule::NFS_CALLS);
}

/// Refusals that come before the header, with a call that is broken too.
fn earlier(runs: &mut Runs<'_>) {
    let mut gate = Gateway::new(runs.open("places: earlier refusals", (2, 2, 0)));
    let sound = call(7, mount_procedure::NULL, None);
    let root = gate.lane.object_at(0);
    let table = gate.lane.driver.table().to_vec();
    let mut damaged = table.clone();
    damaged[TABLE_BYTES - 1] = 1;
    for number in [2, 4, 1, 12] {
        gate.space = if number == 2 { 33_691 } else { 33_692 };
        gate.lane.patch_word(root, if number == 1 { 0 } else { 2 });
        gate.lane
            .driver
            .set_table(if number == 12 { &damaged } else { &table });
        for fault in rule::FAULTS {
            if possible(&[number, fault]) {
                let answer = gate.raw(&faulty(&sound, fault, number == 4)).answer;
                let got = (answer.number, answer.length, answer.offset);
                assert_eq!(got, (number, 0, 0));
                gate.note(&rule::earlier(number, fault));
            }
        }
    }
}
