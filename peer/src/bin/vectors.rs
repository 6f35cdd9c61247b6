//! Writes the vector file, the file of searches and the file of mounts, the
//! text that a replay of them prints, and tables of what they reach.
//!
//! Usage: vectors OUT_DIR

use std::fmt::Write as _;
use std::path::Path;
use std::process::ExitCode;

use peer::generator::recorder::{record, record_mounts, record_searches, Recording};

const LARGEST_FILE: usize = 4_600_000;
const LARGEST_SEARCHES: usize = 1_500_000;
const LARGEST_MOUNTS: usize = 2_500_000;
const LARGEST_DIGESTED: u64 = 300_000_000;

/// The lines before the tables of a file.
fn head(title: &str, recording: &Recording) -> String {
    let total = recording.stdout.lines().last().unwrap_or_default();
    let mut text = format!("# {title}\n\n");
    let _ = writeln!(
        text,
        "{total}. The file has {} bytes; a replay digests {} bytes of stores and tables.\n",
        recording.file.len(),
        recording.digested
    );
    text
}

fn write_all(folder: &Path) -> std::io::Result<bool> {
    let vectors = record();
    let searches = record_searches();
    let mounts = record_mounts();
    let mut text = head("What the vectors reach", &vectors);
    text.push_str(&vectors.coverage.tables());
    text.push('\n');
    text.push_str(head("What the searches reach", &searches).trim_end());
    text.push('\n');
    text.push_str(&searches.coverage.notes());
    text.push('\n');
    text.push_str(head("What the mounts reach", &mounts).trim_end());
    text.push('\n');
    text.push_str(&mounts.coverage.mounts.tables());
    text.push_str(&mounts.coverage.notes());
    std::fs::create_dir_all(folder)?;
    std::fs::write(folder.join("vectors"), &vectors.file)?;
    std::fs::write(folder.join("searches"), &searches.file)?;
    std::fs::write(folder.join("mounts"), &mounts.file)?;
    std::fs::write(
        folder.join("stdout"),
        [&vectors, &searches, &mounts]
            .map(|file| &file.stdout[..])
            .concat(),
    )?;
    std::fs::write(folder.join("COVERAGE.md"), &text)?;
    print!("{text}");
    let mut sound = true;
    let missing = [
        vectors.coverage.missing(),
        searches.coverage.missing_searches(),
        mounts.coverage.missing_mounts(),
    ];
    for missing in missing.concat() {
        eprintln!("missing: {missing}");
        sound = false;
    }
    let unexpected = [&vectors, &searches, &mounts].map(|file| file.coverage.unexpected());
    for unexpected in unexpected.concat() {
        eprintln!("not in the papers: {unexpected}");
        sound = false;
    }
    for (name, recording, largest) in [
        ("vector file", &vectors, LARGEST_FILE),
        ("file of searches", &searches, LARGEST_SEARCHES),
        ("file of mounts", &mounts, LARGEST_MOUNTS),
    ] {
        if recording.file.len() > largest || recording.digested > LARGEST_DIGESTED {
            eprintln!("the {name} or what it digests is too large");
            sound = false;
        }
    }
    Ok(sound)
}

fn main() -> ExitCode {
    let arguments: Vec<String> = std::env::args().skip(1).collect();
    let [folder] = &arguments[..] else {
        eprintln!("usage: vectors OUT_DIR");
        return ExitCode::from(2);
    };
    match write_all(Path::new(folder)) {
        Ok(true) => ExitCode::SUCCESS,
        Ok(false) => ExitCode::FAILURE,
        Err(error) => {
            eprintln!("cannot write to {folder}: {error}");
            ExitCode::FAILURE
        }
    }
}
