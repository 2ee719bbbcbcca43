//! The files that the test reads, by their paths from the root.

use std::collections::BTreeMap;
use std::path::{Path, PathBuf};
use std::{fs, io};

pub const CRATES: &str = "crates.txt";
pub const HEADER: &str = "include/jintarueng.h";
pub const NO_READING_CALLS: &str = "tests/calls/no-reading-calls.txt";

/// The texts of the files by their paths.
#[derive(Clone, Default)]
pub struct Sources {
    pub texts: BTreeMap<String, String>,
}

impl Sources {
    pub fn load(root: &Path) -> io::Result<Sources> {
        let mut paths = vec![CRATES.into(), HEADER.into(), NO_READING_CALLS.into()];
        for entry in fs::read_dir(root.join("crates"))? {
            let folder = Path::new("crates").join(entry?.file_name());
            for part in ["src", "specs"] {
                walk(root, &folder.join(part), &mut paths)?;
            }
        }
        let mut sources = Sources::default();
        for path in paths {
            let text = fs::read_to_string(root.join(&path))?;
            sources.texts.insert(path.display().to_string(), text);
        }
        Ok(sources)
    }

    pub fn text(&self, path: &str) -> &str {
        self.texts.get(path).map_or("", String::as_str)
    }

    /// The files in this folder and in those below it: their names without their endings, with `separator` for `/`.
    pub fn below<'a>(
        &'a self,
        folder: &'a str,
        separator: &'a str,
    ) -> impl Iterator<Item = (String, &'a str)> + 'a {
        self.texts.iter().filter_map(move |(path, text)| {
            let name = path.strip_prefix(folder)?.strip_prefix('/')?;
            let (stem, _) = name.rsplit_once('.')?;
            Some((stem.replace('/', separator), text.as_str()))
        })
    }

    /// The names of all crates, each the first word of its line: before the colon may stand what the crate is.
    pub fn crates(&self) -> Vec<&str> {
        let lines = self.text(CRATES).lines();
        lines
            .filter_map(|line| line.split_once(':')?.0.split_whitespace().next())
            .collect()
    }
}

fn walk(root: &Path, folder: &Path, paths: &mut Vec<PathBuf>) -> io::Result<()> {
    let Ok(entries) = fs::read_dir(root.join(folder)) else {
        return Ok(());
    };
    for entry in entries {
        let entry = entry?;
        let path = folder.join(entry.file_name());
        if entry.file_type()?.is_dir() {
            walk(root, &path, paths)?;
        } else {
            paths.push(path);
        }
    }
    Ok(())
}
