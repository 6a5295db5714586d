//! The commands of ./sheet.

use crate::files;
use crate::load::{file, map_beside, text};
use crate::map::Map;
use crate::operations;
use crate::outcome::{by, failure, print, remark, Failure, Outcome, MISTAKES, MISUSED, OUTPUT_LOST};
use crate::sheet::{self, Sheet};
use crate::show;

const SHEET: &str = "./sheet";

/// A text's sheet and map; warnings are said, and are no failure.
fn model(path: &str) -> Result<(Sheet, Map), Failure> {
    let (sheet, map, warnings) = text(path, &file(SHEET, path)?, MISTAKES)?;
    remark(&warnings);
    Ok((sheet, map))
}

/// The counts in words.
fn counted(sheet: &Sheet) -> String {
    let c = sheet.counts;
    let one = |n: u32, word: &str, words: &str| format!("{n} {}", if n == 1 { word } else { words });
    let heads = one(c.heads, "head", "heads");
    let processes = one(c.processes, "process", "processes");
    let links = one(c.links, "link", "links");
    format!("{heads}, {processes}, {links}, {}", one(sheet.records.len() as u32, "record", "records"))
}

pub fn check(path: &str) -> Outcome {
    let (sheet, _) = model(path)?;
    print(&format!("{path}: no mistakes; {}\n", counted(&sheet)))
}

pub fn build(path: &str, to: &str) -> Outcome {
    let (sheet, map) = model(path)?;
    let bytes = sheet.encode();
    let is_text = |path: &str| files::read(path).is_ok_and(|old| !old.is_empty() && files::is_text(&old));
    if is_text(to) {
        return Err(by(SHEET, MISUSED, &format!("{to} is a text: it is not overwritten")));
    }
    let beside = format!("{to}.map");
    let written =
        files::write(to, &bytes).and_then(|()| files::write(&beside, map.write(sheet.counts, &bytes).as_bytes()));
    written.map_err(|why| by(SHEET, OUTPUT_LOST, &why))?;
    print(&format!("{to}: {}; its map is {beside}\n", counted(&sheet)))
}

pub fn show(path: &str) -> Outcome {
    let bytes = file(SHEET, path)?;
    let is_text = !bytes.is_empty() && files::is_text(&bytes) && std::str::from_utf8(&bytes).is_ok();
    let sheet = sheet::decode(&bytes).map_err(|why| {
        let text = format!("it is a text, and './sheet build {path} SHEET' makes a sheet of it");
        failure(MISTAKES, format!("{path}: error: this is no sheet: {}\n", if is_text { text } else { why }))
    })?;
    print(&show::show(&sheet, &map_beside(path, &sheet, &bytes).names))
}

pub fn print_map(path: &str) -> Outcome {
    let (sheet, map) = model(path)?;
    print(&map.write(sheet.counts, &sheet.encode()))
}

/// The statements of the language, a line each.
pub fn words() -> Outcome {
    let line = |words: &str, means: &str| format!("{words:30} {means}\n");
    let rows: String = operations::TABLE.iter().map(|row| line(&row.words(), row.means)).collect();
    let goto = line("goto LABEL", "the process goes on at the label");
    print(&(rows + &goto + &line("end", "the process comes to its end")))
}
