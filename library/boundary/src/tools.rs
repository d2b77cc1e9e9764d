//! The programs that are run: the compilers, and `nm`.

use std::path::{Path, PathBuf};
use std::process::{Command, Output};

/// A folder that is removed at the end.
pub struct Work(PathBuf);

impl Work {
    /// Named by what it is for, beside the process's number.
    pub fn named(name: &str) -> Result<Work, String> {
        let path = std::env::temp_dir().join(format!("boundary-{}-{name}", std::process::id()));
        std::fs::create_dir_all(&path).map_err(|e| format!("{}: {e}", path.display()))?;
        Ok(Work(path))
    }

    pub fn path(&self) -> &Path {
        &self.0
    }

    pub fn write(&self, name: &str, text: &str) -> Result<(), String> {
        let path = self.0.join(name);
        std::fs::write(&path, text).map_err(|e| format!("{}: {e}", path.display()))
    }
}

impl Drop for Work {
    fn drop(&mut self) {
        let _ = std::fs::remove_dir_all(&self.0);
    }
}

pub fn output(folder: &Path, program: &str, words: &[&str]) -> Result<Output, String> {
    let mut command = Command::new(program);
    // the messages are read: they come in English
    command.current_dir(folder).args(words).env("LC_ALL", "C");
    command
        .output()
        .map_err(|e| format!("{program} cannot be run: {e}"))
}

/// What a program writes, where it ends well.
pub fn ran(folder: &Path, program: &str, words: &[&str]) -> Result<String, String> {
    let output = output(folder, program, words)?;
    if !output.status.success() {
        let said = String::from_utf8_lossy(&output.stderr);
        return Err(format!("{program}: {}", said.trim_end()));
    }
    Ok(String::from_utf8_lossy(&output.stdout).into_owned())
}
