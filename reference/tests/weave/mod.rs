//! Wrong versions of the second implementation. Each is an edit in `wrong/`, of
//! the form of those in `crates/*/must-fail/`. As many as can be stand in one
//! copy of the sources: a function that edits change has a body for each of
//! them, and a number chooses. So the sources have none, and all are one build.

mod edit;

pub use edit::{edits, Edit};

use edit::Sources;
use std::collections::BTreeMap;
use std::fs;
use std::path::{Path, PathBuf};
use std::process::Command;

const ROOT: &str = env!("CARGO_MANIFEST_DIR");

/// The programs that a version is built with.
const PROGRAMS: [&str; 3] = ["reference", "reference_desk", "generate"];

/// The variable that says which version runs. Without it, or with 0, the right
/// one does.
const CHOICE: &str = "WRONG";

/// The module that reads it, in the copy with several versions.
const CHOOSING: &str = r#"
use std::sync::OnceLock;

pub fn number() -> usize {
    static NUMBER: OnceLock<usize> = OnceLock::new();
    *NUMBER.get_or_init(|| match std::env::var(CHOICE) {
        Ok(number) => number.parse().expect("a number"),
        Err(_) => 0,
    })
}
"#;

fn sources() -> Sources {
    let mut sources = Sources::new();
    for part in ["src", "src/bin"] {
        let files = fs::read_dir(Path::new(ROOT).join(part)).expect("the sources");
        for file in files.map(|file| file.expect("a file").path()) {
            if let Some(name) = file.file_name().filter(|_| file.is_file()) {
                let text = fs::read_to_string(&file).expect("text");
                sources.insert(Path::new(part).join(name), text);
            }
        }
    }
    sources
}

/// A text in the formatter's layout, cut at the bodies of its functions: what
/// is outside of them, and the lines of each.
struct Cut {
    outside: Vec<String>,
    bodies: Vec<String>,
}

fn cut(text: &str) -> Cut {
    let (mut outside, mut bodies) = (vec![String::new()], Vec::new());
    let mut lines = text.split_inclusive('\n');
    // The last line of the function whose body has not begun yet.
    let mut end = None;
    while let Some(line) = lines.next() {
        outside.last_mut().expect("it has one").push_str(line);
        let start = line.trim_start();
        if start.starts_with("fn ") || start.starts_with("pub fn ") {
            end = Some(line.replace(start, "}\n"));
        }
        // A function that a trait asks for has no body.
        if line.ends_with(";\n") {
            end = None;
        }
        if !line.ends_with("{\n") {
            continue;
        }
        if let Some(end) = end.take() {
            bodies.push(lines.by_ref().take_while(|&line| line != end).collect());
            outside.push(end);
        }
    }
    Cut { outside, bodies }
}

fn differ_within_functions(right: &Sources, edited: &Sources) -> bool {
    let mut files = right.iter();
    files.all(|(file, text)| cut(text).outside == cut(&edited[file]).outside)
}

/// A file with all its versions, each with its number.
fn woven(right: &Cut, versions: &[(usize, Cut)]) -> String {
    let mut text = right.outside[0].clone();
    for (index, body) in right.bodies.iter().enumerate() {
        let others = versions
            .iter()
            .map(|(number, cut)| (number, &cut.bodies[index]))
            .filter(|&(_, other)| other != body);
        let arms: String = others
            .map(|(number, other)| format!("{number} => {{\n{other}}}\n"))
            .collect();
        if arms.is_empty() {
            text.push_str(body);
        } else {
            let choice = format!("match crate::wrong::number() {{\n{arms}_ => {{\n{body}}}\n}}\n");
            text.push_str(&choice);
        }
        text.push_str(&right.outside[index + 1]);
    }
    text
}

fn woven_together(right: &Sources, versions: &[(usize, Sources)]) -> Sources {
    let mut sources = right.clone();
    for (file, text) in &mut sources {
        let of_file = |(number, version): &(usize, Sources)| (*number, cut(&version[file]));
        let versions: Vec<(usize, Cut)> = versions.iter().map(of_file).collect();
        *text = woven(&cut(text), &versions);
    }
    let library = sources.entry("src/lib.rs".into()).or_default();
    library.push_str("pub mod wrong;\n");
    let choosing = format!("const CHOICE: &str = {CHOICE:?};\n{CHOOSING}");
    sources.insert("src/wrong.rs".into(), choosing);
    sources
}

/// All versions, built: together those that differ within functions, and each of
/// the others apart.
pub struct Versions {
    together: Build,
    apart: BTreeMap<usize, Build>,
}

impl Versions {
    pub fn built(edits: &[Edit]) -> Result<Versions, String> {
        let right = sources();
        let (mut within, mut apart) = (Vec::new(), BTreeMap::new());
        for edit in edits {
            let mut edited = right.clone();
            let applied = edit.apply(&mut edited);
            applied.map_err(|why| format!("{}: {why}", edit.label))?;
            if differ_within_functions(&right, &edited) {
                within.push((edit.number, edited));
            } else {
                apart.insert(edit.number, Build::of(&edited, &edit.label)?);
            }
        }
        let together = Build::of(&woven_together(&right, &within), "together")?;
        Ok(Versions { together, apart })
    }

    /// A program of the version with this number; 0 is the right one.
    pub fn program(&self, number: usize, name: &str) -> Command {
        let build = self.apart.get(&number).unwrap_or(&self.together);
        let mut command = Command::new(build.folder.join(name));
        command.env(CHOICE, number.to_string());
        command
    }
}

/// A copy of the sources in a folder of its own, compiled.
struct Build {
    folder: PathBuf,
}

impl Build {
    fn of(sources: &Sources, label: &str) -> Result<Build, String> {
        let folder = Path::new(env!("CARGO_TARGET_TMPDIR")).join(label);
        fs::create_dir_all(folder.join("src/bin")).map_err(|error| error.to_string())?;
        for (file, text) in sources {
            fs::write(folder.join(file), text).map_err(|error| error.to_string())?;
        }
        let build = Build { folder };
        let library = ["--crate-type", "rlib", "--crate-name", "reference"];
        build.compile(&library, "src/lib.rs")?;
        for program in PROGRAMS {
            let source = format!("src/bin/{program}.rs");
            build.compile(&["--extern", "reference=libreference.rlib"], &source)?;
        }
        Ok(build)
    }

    fn compile(&self, words: &[&str], source: &str) -> Result<(), String> {
        let rustc = std::env::var_os("RUSTC").unwrap_or("rustc".into());
        let output = Command::new(rustc)
            .args(["--edition", "2021", "--cap-lints", "allow"])
            .args(["-C", "opt-level=1", "-C", "overflow-checks=off"])
            .args(words)
            .arg(source)
            .env("CARGO_MANIFEST_DIR", ROOT)
            .current_dir(&self.folder)
            .output()
            .map_err(|error| format!("rustc cannot be run: {error}"))?;
        if !output.status.success() {
            return Err(String::from_utf8_lossy(&output.stderr).into_owned());
        }
        Ok(())
    }
}
