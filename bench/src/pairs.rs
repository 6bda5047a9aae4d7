//! Formulas with their certificates.

use std::{fs, io, path::Path};

#[derive(Clone)]
pub struct Pair {
    pub name: String,
    pub formula: Vec<u8>,
    pub certificate: Vec<u8>,
}

/// The pairs NAME.qdimacs and NAME.ferp of a folder, by name.
pub fn load(folder: &Path) -> io::Result<Vec<Pair>> {
    let mut names = Vec::new();
    for entry in fs::read_dir(folder)? {
        let path = entry?.path();
        if path.extension().is_some_and(|e| e == "ferp") {
            names.push(path);
        }
    }
    names.sort();
    let pair = |path: &std::path::PathBuf| {
        Ok(Pair {
            name: path.file_stem().unwrap_or_default().to_string_lossy().into_owned(),
            formula: fs::read(path.with_extension("qdimacs"))?,
            certificate: fs::read(path)?,
        })
    };
    names.iter().map(pair).collect()
}
