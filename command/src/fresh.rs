//! `fresh ROOT STAMP`: whether the sources are those that the stamp names.
//! The stamp (command/build) has a line for each file and folder of sources
//! under ROOT: size, time of the last change, name. A file that was changed,
//! put there or taken away changes its line or its folder's. What is not there
//! has `- - name`. Exit status: 0 they are, 1 they are not.

use std::os::unix::fs::MetadataExt;
use std::process::ExitCode;

/// Whether a line of the stamp is true in the current folder.
fn same(line: &str) -> bool {
    let mut words = line.splitn(3, ' ');
    let (Some(size), Some(time), Some(name)) = (words.next(), words.next(), words.next()) else { return false };
    let found = std::fs::symlink_metadata(name);
    if size == "-" {
        return found.is_err();
    }
    let Ok(found) = found else { return false };
    found.len().to_string() == size && format!("{}.{:09}0", found.mtime(), found.mtime_nsec()) == time
}

fn main() -> ExitCode {
    let mut words = std::env::args_os().skip(1);
    let (Some(root), Some(stamp)) = (words.next(), words.next()) else { return ExitCode::from(1) };
    let Ok(stamp) = std::fs::read_to_string(stamp) else { return ExitCode::from(1) };
    // names are looked up from ROOT, which is shorter than from the top for each
    let fresh = std::env::set_current_dir(root).is_ok() && !stamp.is_empty() && stamp.lines().all(same);
    ExitCode::from(if fresh { 0 } else { 1 })
}
