//! The program under test as a child with pipes.

use std::io::{Read, Write};
use std::process::{Child, Command, Stdio};
use std::sync::mpsc::channel;
use std::thread;
use std::time::Duration;

/// The program, its arguments, and how long one start of it may take.
#[derive(Clone)]
pub struct Program {
    pub path: String,
    pub args: Vec<String>,
    pub timeout: Duration,
}

/// What it wrote until its end, and whether it ended well.
pub struct Output {
    pub bytes: Vec<u8>,
    pub success: bool,
}

impl Program {
    /// Starts the program, feeds it the input, and gathers its output. One thread writes and one reads,
    /// so that full pipes cannot hold each other up.
    pub fn feed(&self, input: Vec<u8>) -> Result<Output, String> {
        let mut child = self.start()?;
        let mut stdin = child.stdin.take().ok_or("no pipe to the program")?;
        let mut stdout = child.stdout.take().ok_or("no pipe from the program")?;
        let writer = thread::spawn(move || {
            let _ = stdin.write_all(&input); // a program that has ended reads no more
        });
        let (sender, receiver) = channel();
        let reader = thread::spawn(move || {
            let mut bytes = Vec::new();
            let result = stdout.read_to_end(&mut bytes).map(|_| bytes);
            let _ = sender.send(result);
        });
        let Ok(read) = receiver.recv_timeout(self.timeout) else {
            return Err(self.too_slow(&mut child));
        };
        let _ = (writer.join(), reader.join());
        let bytes = read.map_err(|e| format!("reading from the program: {e}"))?;
        let status = child.wait().map_err(|e| format!("waiting for the program: {e}"))?;
        Ok(Output { bytes, success: status.success() })
    }

    fn start(&self) -> Result<Child, String> {
        Command::new(&self.path)
            .args(&self.args)
            .stdin(Stdio::piped())
            .stdout(Stdio::piped())
            .spawn()
            .map_err(|e| format!("starting {}: {e}", self.path))
    }

    /// Ends the child that was started here.
    fn too_slow(&self, child: &mut Child) -> String {
        let _ = child.kill();
        let _ = child.wait();
        format!("no end within {} seconds", self.timeout.as_secs())
    }
}
