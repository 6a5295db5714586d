//! Files, with plain words where they cannot be read or written.

use std::fs::{self, File};
use std::io::{self, ErrorKind, Read, Write};
use std::path::Path;

/// No model is longer.
const MOST_BYTES: u64 = 64 << 20;

/// What a file holds, or why it cannot be read.
pub fn read(path: &str) -> Result<Vec<u8>, String> {
    let mut bytes = Vec::new();
    let file = File::open(path).map_err(|error| cannot_read(path, &error))?;
    file.take(MOST_BYTES + 1).read_to_end(&mut bytes).map_err(|error| cannot_read(path, &error))?;
    if bytes.len() as u64 > MOST_BYTES {
        return Err(format!("{path} has more than {MOST_BYTES} bytes: no model is so long"));
    }
    Ok(bytes)
}

fn cannot_read(path: &str, error: &io::Error) -> String {
    match error.kind() {
        ErrorKind::NotFound => format!("no such file: {path}"),
        ErrorKind::IsADirectory => format!("{path} is a directory"),
        ErrorKind::PermissionDenied => format!("{path} cannot be read: permission denied"),
        _ => format!("{path} cannot be read: {error}"),
    }
}

/// Writes a file: first beside its place, so that an earlier one stays whole if the disk is full.
pub fn write(path: &str, bytes: &[u8]) -> Result<(), String> {
    let cannot = |error: io::Error| format!("{path} cannot be written: {}", lost(&error));
    if fs::metadata(path).is_ok_and(|file| !file.is_file()) {
        return File::create(path).and_then(|mut file| file.write_all(bytes)).map_err(cannot);
    }
    let beside = format!("{path}.{}.part", std::process::id());
    let written = File::create(&beside).and_then(|mut file| file.write_all(bytes).and_then(|()| file.sync_all()));
    let placed = written.and_then(|()| fs::rename(&beside, Path::new(path)));
    if placed.is_err() {
        let _ = fs::remove_file(&beside);
    }
    placed.map_err(cannot)
}

/// Why output was lost.
pub fn lost(error: &io::Error) -> String {
    match error.kind() {
        ErrorKind::StorageFull => "no space left on the disk".to_string(),
        ErrorKind::BrokenPipe => "the reader has closed the pipe".to_string(),
        ErrorKind::NotFound => "no such folder".to_string(),
        ErrorKind::PermissionDenied => "permission denied".to_string(),
        ErrorKind::IsADirectory => "it is a directory".to_string(),
        _ => error.to_string(),
    }
}

/// A text has no byte 0; every sheet has some in its first number.
pub fn is_text(bytes: &[u8]) -> bool {
    !bytes.contains(&0) || bytes.starts_with(&[0xff, 0xfe]) || bytes.starts_with(&[0xfe, 0xff])
}
