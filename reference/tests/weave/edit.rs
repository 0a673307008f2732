//! Edits of a package's sources that make it wrong: the files of its folder
//! `wrong/`, of the form of those in `crates/*/must-fail/`.

use std::collections::BTreeMap;
use std::fs;
use std::path::{Path, PathBuf};

/// Each source file by its path.
pub type Sources = BTreeMap<PathBuf, String>;

pub struct Edit {
    /// Counted from 1.
    pub number: usize,
    pub label: String,
    pub text: String,
}

pub fn edits() -> Vec<Edit> {
    let folder =
        fs::read_dir(Path::new(env!("CARGO_MANIFEST_DIR")).join("wrong")).expect("the edits");
    let mut files: Vec<PathBuf> = folder.map(|file| file.expect("a file").path()).collect();
    files.sort();
    (1..)
        .zip(files)
        .map(|(number, file)| Edit {
            number,
            label: file.file_stem().expect("a name").to_string_lossy().into(),
            text: fs::read_to_string(file).expect("text"),
        })
        .collect()
}

impl Edit {
    /// Replaces what the edit says. A `file:` line holds for the pairs of
    /// `old:` and `new:` after it; other lines are passed over.
    pub fn apply(&self, sources: &mut Sources) -> Result<(), String> {
        let (mut file, mut old) = (Path::new(""), "");
        for line in self.text.lines() {
            if let Some(name) = line.strip_prefix("file: ") {
                file = Path::new(name);
            } else if let Some(text) = line.strip_prefix("old: ") {
                old = text;
            } else if let Some(new) = line.strip_prefix("new:") {
                let text = sources.get_mut(file).ok_or("no such file")?;
                let times = text.matches(old).count();
                if old.is_empty() || times != 1 {
                    return Err(format!("{old:?} is {times} times in {}", file.display()));
                }
                *text = text.replace(old, new.strip_prefix(' ').unwrap_or(new));
            }
        }
        Ok(())
    }
}
