//! All items of a file, and damaged lines in words.
use crate::json::Object;
use crate::line::Line;
use crate::rule;
use packed_refs::{Damage, Error, IdKind, Items, Reason, Table};

/// More of a damaged line is not shown.
const LONGEST_TEXT: usize = 8192;

/// Puts to a line which part of a damaged line is bad, and what more can be said of that.
pub fn put_bad_part(line: &mut Line, damage: &Damage<'_>) {
    line.text(damage.reason.row().meaning);
    let more = match damage.reason {
        Reason::BadId => caret_line(damage.text),
        Reason::BadPeeled => Some("it is the line below this one"),
        _ => broken_rule(damage),
    };
    if let Some(more) = more {
        line.text(" (").text(more).text(")");
    }
}

/// What a line may have been that begins with ^ where a record should stand. A ^ line holds no space.
fn caret_line(text: &[u8]) -> Option<&'static str> {
    if !text.starts_with(b"^") {
        None
    } else if text.contains(&b' ') {
        Some("it begins with ^ but holds a name: it was a record")
    } else {
        Some("it begins with ^: the ^ line of a record that is bad or missing, or a record that lost its first digit")
    }
}

/// Puts the text of a damaged line, cut off if it is very long.
pub fn put_text(line: &mut Line, text: &[u8]) {
    let shown = start_of(text);
    line.escaped(shown);
    if shown.len() < text.len() {
        line.text(" (and ").number((text.len() - shown.len()) as u64).text(" bytes more)");
    }
}

/// The rule that its name breaks, where it is the name that is bad.
fn broken_rule(damage: &Damage<'_>) -> Option<&'static str> {
    (damage.reason == Reason::BadRecordName).then(|| rule::broken(rule::name_in(damage.text)))
}

/// A damaged line as JSON.
pub fn damaged_object(damage: &Damage<'_>) -> Object {
    let object = Object::new("damaged").number("number", damage.reason.number());
    let object = object.optional(damage.line, |object, line| object.number("line", line)).count("byte", damage.place);
    let object = object.bytes("text", start_of(damage.text)).count("length", damage.text.len());
    object.optional(broken_rule(damage), |object, rule| object.text("rule", rule))
}

pub fn start_of(text: &[u8]) -> &[u8] {
    &text[..text.len().min(LONGEST_TEXT)]
}

/// The items of a file, also behind a first line that is no header.
pub fn all_items(kind: IdKind, bytes: &[u8]) -> Result<Items<'_>, Error> {
    let table = Table::new(kind, bytes);
    match table.items() {
        Err(error) if error.reason() == Reason::NoHeader => {
            // Such a line is no record either: the walk goes over it, and knows where the next one is.
            let mut items = table.items_from(0, 1)?;
            let _ = items.next();
            Ok(items)
        }
        other => other,
    }
}
