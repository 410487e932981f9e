//! How things are called in messages.
use packed_refs::Escaped;
use std::ffi::OsStr;
use std::fmt;
use std::os::unix::ffi::OsStrExt;

/// More of a name is not shown; no edit has a longer one.
const LONGEST: usize = 4096;

/// A name in quotes, so that an empty one and a space at its end are seen. A very long one is cut off.
pub struct Quoted<'a>(pub &'a [u8]);

impl fmt::Display for Quoted<'_> {
    fn fmt(&self, f: &mut fmt::Formatter<'_>) -> fmt::Result {
        let shown = &self.0[..self.0.len().min(LONGEST)];
        f.write_str("'")?;
        for (at, part) in shown.split(|b| *b == b'\'').enumerate() {
            let quote = if at > 0 { "\\x27" } else { "" };
            write!(f, "{quote}{}", Escaped(part))?;
        }
        f.write_str("'")?;
        match self.0.len() - shown.len() {
            0 => Ok(()),
            more => write!(f, " and {more} bytes more"),
        }
    }
}

/// What messages call a file: its path, in quotes if it holds anything that a shell would not take as it stands.
pub fn shown(path: &OsStr) -> String {
    let bytes = path.as_bytes();
    let is_plain = |b: &u8| b.is_ascii_alphanumeric() || b"/._-+,:@%".contains(b);
    if bytes == b"-" {
        "standard input".to_string()
    } else if !bytes.is_empty() && bytes.iter().all(is_plain) {
        Escaped(bytes).to_string()
    } else {
        Quoted(bytes).to_string()
    }
}

/// A file, and the line in it where that is known.
pub fn on_line(name: &str, line: Option<u64>) -> String {
    line.map_or(name.to_string(), |line| format!("{name}, line {line}"))
}

/// `1 record`, `2 records`.
pub fn count(number: usize, what: &str) -> String {
    if number == 1 {
        format!("1 {what}")
    } else {
        format!("{number} {what}s")
    }
}
