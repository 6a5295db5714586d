//! Models from files: a text is read into a sheet and its map, a sheet stands for itself, perhaps with a map beside it.

use crate::files;
use crate::map::Map;
use crate::names;
use crate::outcome::{by, failure, remark, Failure, MISUSED};
use crate::report::{Place, Report};
use crate::sheet::Sheet;
use crate::text;

/// What a file holds; without it the command that the user has typed is misused.
pub fn file(command: &str, path: &str) -> Result<Vec<u8>, Failure> {
    files::read(path).map_err(|why| by(command, MISUSED, &why))
}

/// A text as a sheet and its map, and what is to be said of it; for one with mistakes the failure has this status.
pub fn text(path: &str, bytes: &[u8], mistakes: u8) -> Result<(Sheet, Map, String), Failure> {
    let mut report = Report::default();
    let read = match std::str::from_utf8(bytes) {
        Ok(text) if files::is_text(bytes) => {
            let (found, model) = text::read(path, text);
            report = found;
            model
        }
        _ => {
            report.error(first_bad(bytes), no_text(bytes, path));
            None
        }
    };
    let lines = report.lines(path);
    match read {
        Some((sheet, map)) => Ok((sheet, map, lines)),
        None => Err(failure(mistakes, lines)),
    }
}

/// The place of the first byte that is no text.
fn first_bad(bytes: &[u8]) -> Place {
    let good = std::str::from_utf8(bytes).map_or_else(|error| error.valid_up_to(), |_| 0);
    let before = if files::is_text(bytes) { &bytes[..good] } else { &[] };
    let line = before.iter().filter(|byte| **byte == b'\n').count() as u32 + 1;
    let begin = before.iter().rposition(|byte| *byte == b'\n').map_or(0, |at| at + 1);
    Place { line, column: String::from_utf8_lossy(&before[begin..]).chars().count() as u32 + 1 }
}

fn no_text(bytes: &[u8], path: &str) -> String {
    if bytes.starts_with(&[0xff, 0xfe]) || bytes.starts_with(&[0xfe, 0xff]) {
        "this text is in UTF-16: save it as UTF-8".to_string()
    } else if files::is_text(bytes) {
        "this byte is no UTF-8: save the text as UTF-8".to_string()
    } else {
        format!("this is no text, and perhaps a sheet: './sheet show {path}' prints one as a text")
    }
}

/// The map that stands beside a sheet, if it is the sheet's; else made-up names.
pub fn map_beside(path: &str, sheet: &Sheet, bytes: &[u8]) -> Map {
    let beside = format!("{path}.map");
    if let Ok(map) = files::read(&beside) {
        match std::str::from_utf8(&map).ok().and_then(|map| Map::read(map, sheet, bytes)) {
            Some(map) => return map,
            None => remark(&format!("{beside}: warning: this is not the map of {path}, and is not used\n")),
        }
    }
    Map::of_sheet(sheet, names::made_up(sheet.counts))
}
