//! Files of cases: a text, and the exit status and standard error that it has to get.
//!
//!     === name of the case
//!     the text, line by line
//!     --- exit 1
//!     model.txt:2:1: error: ..
//!
//! In texts \t, \r, \xHH and \\ stand for a byte; a line '@times N LINE' stands for N such lines.

const NAME: &str = "=== ";
const EXIT: &str = "--- exit ";
const TIMES: &str = "@times ";

pub struct TextCase {
    pub name: String,
    /// Where it stands in the file of cases.
    pub line: usize,
    pub text: Vec<u8>,
    pub status: i32,
    pub err: String,
}

/// The cases of a file, or what is wrong with it.
pub fn read(file: &str) -> Result<Vec<TextCase>, String> {
    let mut cases: Vec<TextCase> = Vec::new();
    let mut in_text = false;
    for (i, line) in file.lines().enumerate() {
        let at = |why: &str| format!("line {} of the cases: {why}", i + 1);
        if let Some(name) = line.strip_prefix(NAME) {
            if in_text {
                return Err(at("the case before has no '--- exit'"));
            }
            in_text = true;
            let (name, err) = (name.to_string(), String::new());
            cases.push(TextCase { name, line: i + 1, text: Vec::new(), status: 0, err });
            continue;
        }
        let Some(case) = cases.last_mut() else { return Err(at("no '=== NAME' before it")) };
        if let Some(status) = line.strip_prefix(EXIT).filter(|_| in_text) {
            case.status = status.parse().map_err(|_| at("no exit status"))?;
            in_text = false;
        } else if in_text {
            add_line(&mut case.text, line).map_err(|why| at(&why))?;
        } else {
            case.err.push_str(line);
            case.err.push('\n');
        }
    }
    if in_text {
        return Err("the last case has no '--- exit'".to_string());
    }
    Ok(cases)
}

/// Adds a line of a text, or so many.
fn add_line(text: &mut Vec<u8>, line: &str) -> Result<(), String> {
    let (times, line) = match line.strip_prefix(TIMES) {
        None => (1, line),
        Some(rest) => {
            let (times, line) = rest.split_once(' ').ok_or("expected '@times N LINE'")?;
            (times.parse().map_err(|_| format!("not a number: {times}"))?, line)
        }
    };
    let mut bytes = unescaped(line)?;
    bytes.push(b'\n');
    text.extend(bytes.repeat(times));
    Ok(())
}

fn unescaped(line: &str) -> Result<Vec<u8>, String> {
    let mut bytes = Vec::new();
    let mut rest = line;
    while let Some((before, after)) = rest.split_once('\\') {
        bytes.extend_from_slice(before.as_bytes());
        let unknown = || format!("no such escape: \\{}", after.chars().next().unwrap_or(' '));
        let (byte, length) = match after.bytes().next() {
            Some(b't') => (b'\t', 1),
            Some(b'r') => (b'\r', 1),
            Some(b'\\') => (b'\\', 1),
            Some(b'x') => {
                let digits = after.get(1..3).ok_or_else(unknown)?;
                (u8::from_str_radix(digits, 16).map_err(|_| unknown())?, 3)
            }
            _ => return Err(unknown()),
        };
        bytes.push(byte);
        rest = &after[length..];
    }
    bytes.extend_from_slice(rest.as_bytes());
    Ok(bytes)
}
