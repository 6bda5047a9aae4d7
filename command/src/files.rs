//! The files that a verb is given: all are read before the first is checked,
//! so that trouble with one of them leaves no verdict behind.

use crate::streams;
use hutsvida::LONGEST;
use std::ffi::{OsStr, OsString};
use std::fs::File;
use std::io::Read;

/// Standard input, as one of the files.
const INPUT: &str = "-";

/// A file's bytes, no more than one beyond the limit: a longer one is
/// refused whatever follows.
fn read(name: &OsStr) -> Result<Vec<u8>, String> {
    let failed = |error| format!("cannot read {}: {error}", shown_name(name));
    let mut bytes = Vec::new();
    let most = LONGEST as u64 + 1;
    if name != INPUT {
        let file = File::open(name).map_err(failed)?;
        file.take(most).read_to_end(&mut bytes).map_err(failed)?;
    } else if streams::input_closed() {
        return Err("cannot read standard input: it is closed".to_string());
    } else {
        std::io::stdin().take(most).read_to_end(&mut bytes).map_err(failed)?;
    }
    Ok(bytes)
}

pub fn read_all(names: &[OsString]) -> Result<Vec<Vec<u8>>, String> {
    if names.iter().filter(|name| *name == INPUT).count() > 1 {
        return Err("standard input (-) can be one of the files only; a file of that name is ./-".to_string());
    }
    names.iter().map(|name| read(name)).collect()
}

/// A name for a message: control characters and backslashes are escaped.
pub fn shown_name(name: &OsStr) -> String {
    let escape = |c: char| if c.is_control() || c == '\\' { c.escape_default().to_string() } else { c.to_string() };
    name.to_string_lossy().chars().map(escape).collect()
}
