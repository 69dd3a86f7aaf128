//! Planted mistakes: an edit of the reference's sources, in a copy that is built apart.
//! The reference itself has none of it.

use std::fs;
use std::io;
use std::path::{Path, PathBuf};
use std::process::Command;

/// Some lines of a file, and the lines that stand there instead.
#[derive(Debug, PartialEq, Eq)]
struct Edit {
    file: String,
    old: String,
    new: String,
}

/// A mistake: what it is, and the edits that make it.
#[derive(Debug)]
pub struct Mistake {
    pub name: String,
    pub about: String,
    edits: Vec<Edit>,
}

/// The mistakes of a folder, a file `NAME.edit` each.
pub fn mistakes_in(folder: &Path) -> io::Result<Vec<Mistake>> {
    let mut paths: Vec<PathBuf> = fs::read_dir(folder)?
        .map(|file| file.map(|file| file.path()))
        .collect::<io::Result<_>>()?;
    paths.retain(|path| path.extension().is_some_and(|end| end == "edit"));
    paths.sort();
    let mut mistakes = Vec::new();
    for path in paths {
        let name = path.file_stem().unwrap_or_default().to_string_lossy();
        let mistake = parse(&name, &fs::read_to_string(&path)?);
        mistakes.push(mistake.ok_or_else(|| failed(format!("{name}.edit is no edit")))?);
    }
    Ok(mistakes)
}

fn failed(text: String) -> io::Error {
    io::Error::other(text)
}

/// `#` lines that say what it is, then `file: NAME`, `old:` and its lines, `new:` and
/// its lines, once or several times.
fn parse(name: &str, text: &str) -> Option<Mistake> {
    let mut about = Vec::new();
    let mut edits: Vec<Edit> = Vec::new();
    let mut in_new = None;
    for line in text.lines() {
        if let Some(file) = line.strip_prefix("file: ") {
            edits.push(Edit {
                file: file.to_string(),
                old: String::new(),
                new: String::new(),
            });
            in_new = None;
        } else if line == "old:" {
            in_new = Some(false);
        } else if line == "new:" {
            in_new = Some(true);
        } else if let (Some(edit), Some(in_new)) = (edits.last_mut(), in_new) {
            let lines = if in_new { &mut edit.new } else { &mut edit.old };
            lines.push_str(line);
            lines.push('\n');
        } else {
            about.push(line.strip_prefix('#')?.trim());
        }
    }
    let whole = !edits.is_empty() && edits.iter().all(|edit| !edit.old.is_empty());
    whole.then(|| Mistake {
        name: name.to_string(),
        about: about.join(" "),
        edits,
    })
}

impl Mistake {
    /// The text of a source file with the mistake in it; nothing if what an edit
    /// replaces is not there exactly once.
    fn edited(&self, file: &str, text: &str) -> Option<String> {
        let mut text = text.to_string();
        for edit in self.edits.iter().filter(|edit| edit.file == file) {
            if text.matches(&edit.old).count() != 1 {
                return None;
            }
            text = text.replacen(&edit.old, &edit.new, 1);
        }
        Some(text)
    }

    /// Builds the reference's console program with the mistake in it, in `scratch`.
    pub fn build(&self, reference: &Path, scratch: &Path) -> io::Result<PathBuf> {
        let copy = scratch.join(&self.name);
        for file in source_files(reference)? {
            let text = fs::read_to_string(reference.join(&file))?;
            let edited = self.edited(&file, &text);
            let edited =
                edited.ok_or_else(|| failed(format!("{}.edit does not fit {file}", self.name)))?;
            write_if_other(&copy.join(&file), &edited)?;
        }
        let target = copy.join("target");
        let status = Command::new("cargo")
            .args(["build", "--quiet", "--release", "--offline", "--locked"])
            .args(["--bin", "reference", "--manifest-path"])
            .arg(copy.join("Cargo.toml"))
            .arg("--target-dir")
            .arg(&target)
            .status()?;
        if !status.success() {
            return Err(failed(format!("{}.edit does not build", self.name)));
        }
        Ok(target.join("release/reference"))
    }
}

/// The files that make the reference, as paths inside its folder.
fn source_files(reference: &Path) -> io::Result<Vec<String>> {
    let mut files = vec!["Cargo.toml".to_string(), "Cargo.lock".to_string()];
    let mut folders = vec!["src".to_string()];
    while let Some(folder) = folders.pop() {
        for item in fs::read_dir(reference.join(&folder))? {
            let item = item?;
            let name = format!("{folder}/{}", item.file_name().to_string_lossy());
            if item.file_type()?.is_dir() {
                folders.push(name);
            } else {
                files.push(name);
            }
        }
    }
    Ok(files)
}

/// A file that stays as it was is not built again.
fn write_if_other(path: &Path, text: &str) -> io::Result<()> {
    if fs::read_to_string(path).is_ok_and(|old| old == text) {
        return Ok(());
    }
    if let Some(folder) = path.parent() {
        fs::create_dir_all(folder)?;
    }
    fs::write(path, text)
}

#[cfg(test)]
mod tests {
    use super::*;

    #[test]
    fn an_edit_is_read_and_made() {
        let text = "# What it is,\n# in two lines.\nfile: src/a.rs\nold:\n  one\nnew:\n  1\n  2\n";
        let mistake = parse("x", text).unwrap();
        assert_eq!(mistake.about, "What it is, in two lines.");
        assert_eq!(
            mistake.edited("src/a.rs", "zero\n  one\ntwo\n").unwrap(),
            "zero\n  1\n  2\ntwo\n"
        );
        assert_eq!(mistake.edited("src/b.rs", "  one\n").unwrap(), "  one\n");
        assert_eq!(mistake.edited("src/a.rs", "zero\n"), None);
        assert_eq!(mistake.edited("src/a.rs", "  one\n  one\n"), None);
        assert!(parse("x", "no edit\n").is_none());
        assert!(parse("x", "").is_none());
    }

    #[test]
    fn every_planted_mistake_fits_the_reference() {
        let here = Path::new(env!("CARGO_MANIFEST_DIR"));
        let reference = here.join("../reference");
        let mistakes = mistakes_in(&here.join("planted")).unwrap();
        assert!(mistakes.len() >= 5);
        for mistake in mistakes {
            assert!(!mistake.about.is_empty(), "{}", mistake.name);
            for edit in &mistake.edits {
                let text = fs::read_to_string(reference.join(&edit.file)).unwrap();
                let edited = mistake.edited(&edit.file, &text);
                assert!(edited.is_some_and(|edited| edited != text), "{edit:?}");
            }
        }
    }
}
