//! A folder of its own, and the tool run in it.

use crate::json::Value;
use std::path::{Path, PathBuf};
use std::process::{self, Command, Output, Stdio};
use std::sync::atomic::{AtomicU64, Ordering};
use std::{env, fs};

/// The repository's folder.
pub fn repository() -> PathBuf {
    Path::new(env!("CARGO_MANIFEST_DIR")).join("../..")
}

/// The tool that is tested: RUNNELPIN, else the one in build/.
pub fn tool() -> PathBuf {
    let path = env::var_os("RUNNELPIN").map_or("build/runnelpin".into(), PathBuf::from);
    let path = repository().join(path);
    let found = path.canonicalize();
    found.unwrap_or_else(|_| panic!("no tool at {}: make tool", path.display()))
}

/// What a run printed, and its exit status.
#[derive(Debug)]
pub struct Said {
    pub status: i32,
    pub out: String,
    pub err: String,
}

impl Said {
    fn new(output: Output) -> Said {
        let text = |bytes| String::from_utf8(bytes).expect("UTF-8");
        Said {
            status: output.status.code().expect("ended by a signal"),
            out: text(output.stdout),
            err: text(output.stderr),
        }
    }

    pub fn json(&self) -> Value {
        Value::read(&self.out).unwrap_or_else(|| panic!("no JSON: {self:?}"))
    }
}

/// The folder, which goes with this value.
pub struct Desk(PathBuf);

impl Desk {
    pub fn new() -> Desk {
        static NEXT: AtomicU64 = AtomicU64::new(0);
        let number = NEXT.fetch_add(1, Ordering::Relaxed);
        let folder = env::temp_dir().join(format!("runnelpin-{}-{number}", process::id()));
        fs::create_dir(&folder).unwrap();
        Desk(folder)
    }

    pub fn path(&self, name: &str) -> PathBuf {
        self.0.join(name)
    }

    pub fn put(&self, name: &str, bytes: impl AsRef<[u8]>) {
        fs::write(self.path(name), bytes).unwrap();
    }

    pub fn get(&self, name: &str) -> Vec<u8> {
        fs::read(self.path(name)).unwrap_or_else(|error| panic!("{name}: {error}"))
    }

    pub fn has(&self, name: &str) -> bool {
        self.path(name).symlink_metadata().is_ok()
    }

    pub fn names(&self) -> Vec<String> {
        let entries = fs::read_dir(&self.0).unwrap();
        let name = |entry: Result<fs::DirEntry, _>| entry.unwrap().file_name().into_string();
        let mut names: Vec<String> = entries.map(|entry| name(entry).unwrap()).collect();
        names.sort();
        names
    }

    /// Runs the tool with these words, which spaces part.
    pub fn run(&self, words: &str) -> Said {
        let mut command = Command::new(tool());
        command.args(words.split_whitespace());
        self.start(command)
    }

    /// Runs a line of shell; `runnelpin` is the tool.
    pub fn shell(&self, line: &str) -> Said {
        let mut command = Command::new("sh");
        let line = format!("runnelpin() {{ \"{}\" \"$@\"; }}\n{line}", tool().display());
        command.args(["-c", &line]);
        self.start(command)
    }

    pub fn start(&self, mut command: Command) -> Said {
        let command = command.current_dir(&self.0).stdin(Stdio::null());
        Said::new(command.output().unwrap())
    }
}

impl Default for Desk {
    fn default() -> Desk {
        Desk::new()
    }
}

impl Drop for Desk {
    fn drop(&mut self) {
        let _ = fs::remove_dir_all(&self.0);
    }
}
