//! The scenes tell every wrong keeper from the right one. A wrong keeper is an
//! edit in `wrong/`, which names the scene that tells it.
//!
//! That nothing is flushed cannot be told so: only a power cut shows it.

#[path = "../../reference/tests/weave/edit.rs"]
mod edit;
mod scenes;

use edit::{edits, Edit, Sources};
use scenes::SCENES;
use std::fs;
use std::io::{self, Write};
use std::panic;
use std::path::{Path, PathBuf};
use std::process::Command;

fn sources() -> Sources {
    let files = fs::read_dir(Path::new(env!("CARGO_MANIFEST_DIR")).join("src"));
    let files = files
        .expect("the sources")
        .map(|file| file.expect("a file"));
    let named = files.map(|file| {
        let text = fs::read_to_string(file.path()).expect("text");
        (Path::new("src").join(file.file_name()), text)
    });
    named.collect()
}

/// The keeper with an edit, in a folder of its own.
fn built(edit: &Edit) -> Result<PathBuf, String> {
    let mut sources = sources();
    edit.apply(&mut sources)?;
    let folder = Path::new(env!("CARGO_TARGET_TMPDIR")).join(&edit.label);
    fs::create_dir_all(folder.join("src")).map_err(|error| error.to_string())?;
    for (file, text) in &sources {
        fs::write(folder.join(file), text).map_err(|error| error.to_string())?;
    }
    let rustc = std::env::var_os("RUSTC").unwrap_or("rustc".into());
    let output = Command::new(rustc)
        .args(["--edition", "2021", "--cap-lints", "allow", "-o", "keep"])
        .arg("src/main.rs")
        .current_dir(&folder)
        .output()
        .map_err(|error| format!("rustc cannot be run: {error}"))?;
    if !output.status.success() {
        return Err(String::from_utf8_lossy(&output.stderr).into_owned());
    }
    Ok(folder.join("keep"))
}

/// Which scene tells a wrong keeper; an error where it passes for the right one.
fn try_edit(edit: &Edit) -> Result<&str, String> {
    let mut lines = edit.text.lines();
    let named = lines.find_map(|line| line.strip_prefix("told: "));
    let named = named.ok_or("it names no scene")?;
    let (_, scene) = SCENES
        .iter()
        .find(|(name, _)| *name == named)
        .ok_or("no such scene")?;
    let keep = built(edit)?;
    match panic::catch_unwind(|| scene(&keep)) {
        Ok(()) => Err(format!("{named} does not tell it")),
        Err(_) => Ok(named),
    }
}

#[test]
fn every_wrong_keeper_is_told_apart() {
    let edits = edits();
    let mut unseen = Vec::new();
    for edit in &edits {
        let told = match try_edit(edit) {
            Ok(scene) => format!("told by {scene}"),
            Err(why) => {
                unseen.push(format!("{}: {why}", edit.label));
                why
            }
        };
        // News of a long test, though the output of tests is kept back.
        let (number, all, label) = (edit.number, edits.len(), &edit.label);
        let _ = writeln!(
            io::stderr(),
            "wrong keeper {number} of {all}, {label}: {told}"
        );
    }
    assert!(unseen.is_empty(), "{}", unseen.join("\n"));
}

/// So it is the edit that a scene tells.
#[test]
fn keeper_without_an_edit_passes() {
    let none = Edit {
        number: 0,
        label: "none".to_string(),
        text: String::new(),
    };
    let keep = built(&none).unwrap_or_else(|why| panic!("{why}"));
    let (_, scene) = SCENES[SCENES.len() - 1];
    scene(&keep);
}
