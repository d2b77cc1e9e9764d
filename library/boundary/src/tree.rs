//! The texts that are compared, by their path from the root on.

use std::collections::BTreeMap;
use std::fs;
use std::path::Path;

use crate::{calls, header, numbers, rust, version};

#[derive(Clone, Default)]
pub struct Tree(BTreeMap<String, String>);

impl Tree {
    /// Reads all Rattle text of the crates, and the files that are held to it.
    pub fn read(root: &Path) -> Result<Tree, String> {
        let mut tree = Tree::default();
        let crates = root.join("crates");
        for entry in entries(&crates)? {
            tree.read_rattle(root, &format!("crates/{entry}/src"))?;
        }
        let others = [
            calls::ORDERS,
            calls::TESTS,
            numbers::ORDER,
            numbers::TABLE,
            header::FILE,
            rust::RAW,
            rust::SIZES,
            rust::REFUSAL,
            rust::DOCUMENTATION,
            version::MANIFEST,
        ];
        for path in others {
            tree.read_file(root, path)?;
        }
        Ok(tree)
    }

    fn read_rattle(&mut self, root: &Path, folder: &str) -> Result<(), String> {
        if !root.join(folder).is_dir() {
            return Ok(());
        }
        for entry in entries(&root.join(folder))? {
            let path = format!("{folder}/{entry}");
            if root.join(&path).is_dir() {
                self.read_rattle(root, &path)?;
            } else if path.ends_with(".rt") {
                self.read_file(root, &path)?;
            }
        }
        Ok(())
    }

    fn read_file(&mut self, root: &Path, path: &str) -> Result<(), String> {
        let text = fs::read_to_string(root.join(path)).map_err(|e| format!("{path}: {e}"))?;
        self.0.insert(path.to_string(), text);
        Ok(())
    }

    pub fn text(&self, path: &str) -> Result<&str, String> {
        let text = self.0.get(path);
        text.map(String::as_str)
            .ok_or_else(|| format!("{path} is missing"))
    }

    pub fn put(&mut self, path: &str, text: &str) {
        self.0.insert(path.to_string(), text.to_string());
    }

    /// The Rattle texts with their paths.
    pub fn rattle(&self) -> impl Iterator<Item = (&str, &str)> {
        let all = self
            .0
            .iter()
            .map(|(path, text)| (path.as_str(), text.as_str()));
        all.filter(|(path, _)| path.ends_with(".rt"))
    }
}

/// The names in a folder, sorted.
fn entries(folder: &Path) -> Result<Vec<String>, String> {
    let wrong = |e: std::io::Error| format!("{}: {e}", folder.display());
    let mut out = Vec::new();
    for entry in fs::read_dir(folder).map_err(wrong)? {
        out.push(
            entry
                .map_err(wrong)?
                .file_name()
                .to_string_lossy()
                .into_owned(),
        );
    }
    out.sort();
    Ok(out)
}
