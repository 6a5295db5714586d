//! The desk under test: a command line tool, started in a folder of the test's own.

use super::child::Program;
use super::print::describe;
use super::tally::Tally;
use std::fs;
use std::io::Read;
use std::path::{Path, PathBuf};
use std::process::{Command, Stdio};
use std::sync::mpsc::{channel, Receiver};
use std::thread;

/// The tool and the folder that its files stand in.
pub struct Desk {
    program: Program,
    folder: Folder,
}

/// How one start of it ended.
pub struct Ended {
    /// None if it was ended from outside.
    pub status: Option<i32>,
    pub out: Vec<u8>,
    pub err: String,
}

impl Desk {
    pub fn new(program: &Program, name: &str) -> Result<Desk, String> {
        let program = Program { path: absolute(&program.path)?, ..program.clone() };
        Ok(Desk { program, folder: Folder::new(name)? })
    }

    /// Starts it with these arguments, and with the folder as current directory.
    pub fn start(&self, args: &[&str]) -> Result<Ended, String> {
        let (path, timeout) = (&self.program.path, self.program.timeout);
        let mut command = Command::new(path);
        command.args(args).args(&self.program.args).current_dir(&self.folder.path);
        command.stdin(Stdio::null()).stdout(Stdio::piped()).stderr(Stdio::piped());
        let mut child = command.spawn().map_err(|e| format!("starting {path}: {e}"))?;
        let out = gather(child.stdout.take());
        let err = gather(child.stderr.take());
        let (Ok(out), Ok(err)) = (out.recv_timeout(timeout), err.recv_timeout(timeout)) else {
            let _ = child.kill();
            let _ = child.wait();
            return Err(format!("{}: no end within {} seconds", args.join(" "), timeout.as_secs()));
        };
        let status = child.wait().map_err(|e| format!("waiting for {path}: {e}"))?;
        Ok(Ended { status: status.code(), out, err: String::from_utf8_lossy(&err).into_owned() })
    }

    pub fn write(&self, name: &str, bytes: &[u8]) -> Result<(), String> {
        fs::write(self.folder.path.join(name), bytes).map_err(|e| format!("writing {name}: {e}"))
    }

    pub fn read(&self, name: &str) -> Result<Vec<u8>, String> {
        fs::read(self.folder.path.join(name)).map_err(|e| format!("reading {name}: {e}"))
    }

    pub fn has(&self, name: &str) -> bool {
        self.folder.path.join(name).exists()
    }

    /// Removes files, where they are there.
    pub fn remove(&self, names: &[&str]) {
        for name in names {
            let _ = fs::remove_file(self.folder.path.join(name));
        }
    }
}

/// Tries one sheet after the other, until one fails.
pub fn try_sheets(
    tally: &mut Tally,
    sheets: u64,
    mut next: impl FnMut() -> Vec<u8>,
    one: impl Fn(&[u8]) -> Result<(), String>,
) {
    for _ in 0..sheets {
        let bytes = next();
        match one(&bytes) {
            Ok(()) => tally.pass(),
            Err(error) => return tally.fail(&format!("{}{error}", describe(&bytes))),
        }
    }
}

/// The path as it can be started from any folder; a name without a slash is looked up by the system.
pub fn absolute(path: &str) -> Result<String, String> {
    if !path.contains('/') {
        return Ok(path.to_string());
    }
    let whole = fs::canonicalize(Path::new(path)).map_err(|e| format!("{path}: {e}"))?;
    Ok(whole.to_string_lossy().into_owned())
}

/// Reads a pipe to its end on a thread, so that full pipes cannot hold each other up.
fn gather(pipe: Option<impl Read + Send + 'static>) -> Receiver<Vec<u8>> {
    let (sender, receiver) = channel();
    thread::spawn(move || {
        let mut bytes = Vec::new();
        if pipe.is_some_and(|mut pipe| pipe.read_to_end(&mut bytes).is_ok()) {
            let _ = sender.send(bytes);
        }
    });
    receiver
}

/// A new folder among the system's temporary ones, removed at the end.
struct Folder {
    path: PathBuf,
}

impl Folder {
    fn new(name: &str) -> Result<Folder, String> {
        let path = std::env::temp_dir().join(format!("nodbrize_tests.{}.{name}", std::process::id()));
        fs::create_dir(&path).map_err(|e| format!("making {}: {e}", path.display()))?;
        Ok(Folder { path })
    }
}

impl Drop for Folder {
    fn drop(&mut self) {
        let _ = fs::remove_dir_all(&self.path);
    }
}
