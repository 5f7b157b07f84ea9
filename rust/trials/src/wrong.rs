//! References with one mistake in each, to see that the trials tell them from
//! the right one. A mistake is an edit in a text file:
//!
//! ```text
//! # What is wrong, in a sentence.
//! demand 3
//! file src/judge.rs
//! old
//! | the text that is replaced, which must stand there exactly once
//! new
//! | the text in its place
//! ```
//!
//! `demand 3` stands where the mistake breaks it: what healthy nodes start is not
//! the one order that the records give, or a healthy report comes into class 1 to
//! 4. Then whole cabinets must show it.
//!
//! `wrong/` holds those that must be told by sessions, and by the doors' trials
//! too; `wrong-node/` those of a node, which no session shows. `alike/` holds
//! changes of the text that change no answer, with the reason; these must not be
//! told by sessions.

use std::fs;
use std::io;
use std::path::{Path, PathBuf};
use std::process::Command;

const BREAKS_DEMAND_3: &str = "demand 3";

#[derive(Clone, Debug, PartialEq, Eq)]
pub struct Edit {
    pub name: String,
    pub says: String,
    /// Whether it breaks demand 3.
    pub breaks_demand_3: bool,
    file: String,
    old: String,
    new: String,
}

impl Edit {
    pub fn parse(name: &str, text: &str) -> Result<Edit, String> {
        let (mut says, mut file, mut old, mut new) = (Vec::new(), None, Vec::new(), Vec::new());
        let mut part = "";
        let breaks_demand_3 = text.lines().any(|line| line == BREAKS_DEMAND_3);
        for line in text.lines().filter(|&line| line != BREAKS_DEMAND_3) {
            match (line.strip_prefix("# "), line.strip_prefix("file "), line.strip_prefix('|')) {
                (Some(sentence), _, _) => says.push(sentence),
                (_, Some(path), _) if file.is_none() => file = Some(path),
                (_, _, Some(code)) if part == "old" => old.push(code.strip_prefix(' ').unwrap_or(code)),
                (_, _, Some(code)) if part == "new" => new.push(code.strip_prefix(' ').unwrap_or(code)),
                _ if line == "old" || line == "new" => part = line,
                _ => return Err(format!("{name}: a line that says nothing: {line:?}")),
            }
        }
        match file {
            Some(file) if !says.is_empty() && !old.is_empty() && !new.is_empty() => Ok(Edit {
                name: name.to_string(),
                says: says.join(" "),
                breaks_demand_3,
                file: file.to_string(),
                old: old.join("\n"),
                new: new.join("\n"),
            }),
            _ => Err(format!("{name}: a sentence, a file, the old text and the new text are needed")),
        }
    }

    /// Whether the mistake is in what a session does and prints, which no door shows.
    pub fn of_session(&self) -> bool {
        self.name.starts_with("session-")
    }

    /// The source with the mistake in it. An edit that fits nowhere, or in two
    /// places, has lost its meaning and is an error.
    pub fn apply(&self, source: &str) -> Result<String, String> {
        match source.matches(&self.old).count() {
            1 => Ok(source.replacen(&self.old, &self.new, 1)),
            times => Err(format!("{}: the old text stands {times} times in {}", self.name, self.file)),
        }
    }
}

/// All edits of a folder, by name.
pub fn edits(folder: &Path) -> Result<Vec<Edit>, String> {
    let tell = |error| format!("{}: {error}", folder.display());
    let mut edits = Vec::new();
    for entry in fs::read_dir(folder).map_err(tell)? {
        let path = entry.map_err(tell)?.path();
        let name = path.file_stem().map_or(String::new(), |name| name.to_string_lossy().into_owned());
        if path.extension().is_none_or(|extension| extension != "edit") {
            return Err(format!("{} is no edit", path.display()));
        }
        edits.push(Edit::parse(&name, &fs::read_to_string(&path).map_err(tell)?)?);
    }
    edits.sort_by(|one, other| one.name.cmp(&other.name));
    Ok(edits)
}

/// A copy of the reference crate that takes one edit at a time.
pub struct Copy {
    original: PathBuf,
    folder: PathBuf,
}

impl Copy {
    pub fn new(original: &Path, folder: &Path) -> Copy {
        Copy { original: original.to_path_buf(), folder: folder.to_path_buf() }
    }

    /// Builds the session program of the reference with this edit, or of the
    /// reference as it is, and says where it is.
    pub fn build(&self, edit: Option<&Edit>) -> Result<PathBuf, String> {
        self.write(edit)?;
        build(&self.folder, "reference-session", edit)
    }

    /// Writes the copy, with the edit in the one file that it names.
    pub fn write(&self, edit: Option<&Edit>) -> Result<(), String> {
        let tell = |error: io::Error| format!("{}: {error}", self.folder.display());
        fs::create_dir_all(self.folder.join("src")).map_err(tell)?;
        // A workspace of its own: the copy stands inside the folder of another.
        // A name of its own: a program may hold the copy beside the original.
        let manifest = fs::read_to_string(self.original.join("Cargo.toml")).map_err(tell)?;
        let manifest = manifest.replacen("name = \"reference\"", "name = \"wrong-reference\"", 1);
        fs::write(self.folder.join("Cargo.toml"), manifest + "\n[workspace]\n").map_err(tell)?;
        let mut applied = edit.is_none();
        for entry in fs::read_dir(self.original.join("src")).map_err(tell)? {
            let path = entry.map_err(tell)?.path();
            let name = format!("src/{}", path.file_name().expect("a file").to_string_lossy());
            let mut source = fs::read_to_string(&path).map_err(tell)?;
            if let Some(edit) = edit.filter(|edit| edit.file == name) {
                source = edit.apply(&source)?;
                applied = true;
            }
            fs::write(self.folder.join(&name), source).map_err(tell)?;
        }
        if applied {
            Ok(())
        } else {
            Err("the edit names no file of the reference".to_string())
        }
    }
}

/// The doors' trials with a wrong reference in the library's place: the program
/// `trials-doors` over `doors/model`, which is compiled with the copy, while what
/// it is compared with keeps the right one.
pub struct WrongDoors {
    copy: Copy,
    trials: PathBuf,
    folder: PathBuf,
}

const MANIFEST: &str = "\
[package]
name = \"wrong-doors\"
version = \"0.1.0\"
edition = \"2021\"

[dependencies]
trials = { path = \"../../../trials\" }
reference = { path = \"../reference\", package = \"wrong-reference\" }

[workspace]

[profile.dev]
opt-level = 1
debug = false
";

/// The import is what `model` knows as `crate::doors`.
const MAIN: &str = "\
mod model;
use trials::doors;

fn main() -> std::process::ExitCode {
    doors::program::main(&model::model)
}
";

impl WrongDoors {
    /// `folder` stands two folders below that of the workspace.
    pub fn new(reference: &Path, trials: &Path, folder: &Path) -> WrongDoors {
        let copy = Copy::new(reference, &folder.join("reference"));
        WrongDoors { copy, trials: trials.to_path_buf(), folder: folder.join("doors") }
    }

    /// Builds the program, and says where it is.
    pub fn build(&self, edit: Option<&Edit>) -> Result<PathBuf, String> {
        self.copy.write(edit)?;
        let tell = |error: io::Error| format!("{}: {error}", self.folder.display());
        fs::create_dir_all(self.folder.join("src/model")).map_err(tell)?;
        fs::write(self.folder.join("Cargo.toml"), MANIFEST).map_err(tell)?;
        fs::write(self.folder.join("src/main.rs"), MAIN).map_err(tell)?;
        for file in ["model.rs", "model/words.rs"] {
            let original = self.trials.join("src/doors").join(file);
            fs::copy(original, self.folder.join("src").join(file)).map_err(tell)?;
        }
        build(&self.folder, "wrong-doors", edit)
    }
}

fn build(folder: &Path, program: &str, edit: Option<&Edit>) -> Result<PathBuf, String> {
    let built = Command::new(std::env::var_os("CARGO").unwrap_or("cargo".into()))
        .args(["build", "--offline", "--quiet", "--bin", program])
        .current_dir(folder)
        .env("CARGO_TARGET_DIR", "target")
        .output()
        .map_err(|error| format!("cargo: {error}"))?;
    if !built.status.success() {
        let name = edit.map_or("the reference", |edit| &edit.name);
        return Err(format!("{name} does not build:\n{}", String::from_utf8_lossy(&built.stderr)));
    }
    Ok(folder.join("target/debug").join(program))
}
