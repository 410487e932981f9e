//! Which name rule a name breaks, in words.
use packed_refs::IdKind;

/// A rule of Git's page git-check-ref-format, with at least one slash, that a name breaks. The library has refused the name; this says why, and
/// decides nothing.
pub fn broken(name: &[u8]) -> &'static str {
    let holds = Held::by(name);
    if name.is_empty() {
        "it is empty"
    } else if holds.space {
        "it holds a space"
    } else if holds.control {
        "it holds a control byte"
    } else if holds.mark {
        "it holds one of ~ ^ : ? * [ \\"
    } else if name.starts_with(b"/") {
        "it begins with a slash"
    } else if name.ends_with(b"/") {
        "it ends with a slash"
    } else if holds.two_slashes {
        "it holds two slashes in a row"
    } else if holds.dot_in_front {
        "a part of it begins with a dot"
    } else if holds.two_dots {
        "it holds two dots in a row"
    } else if name.ends_with(b".") {
        "it ends with a dot"
    } else if holds.lock_at_the_end {
        "a part of it ends with .lock"
    } else if holds.at_brace {
        "it holds @{"
    } else if !holds.slash {
        "it has no slash"
    } else {
        "it breaks the name rules"
    }
}

/// What stands in a name, seen in one pass: a report may have a million of them.
#[derive(Default)]
struct Held {
    space: bool,
    control: bool,
    mark: bool,
    slash: bool,
    two_slashes: bool,
    /// Of the name or of a part.
    dot_in_front: bool,
    two_dots: bool,
    /// Of the name or of a part.
    lock_at_the_end: bool,
    at_brace: bool,
}

/// The bytes that a rule speaks of. All others are passed over.
const SPOKEN_OF: [bool; 256] = {
    let mut spoken = [false; 256];
    let mut byte = 0;
    while byte < 32 {
        spoken[byte] = true;
        byte += 1;
    }
    let mut at = 0;
    let others = b" ~^:?*[\\/.{\x7f";
    while at < others.len() {
        spoken[others[at] as usize] = true;
        at += 1;
    }
    spoken
};

impl Held {
    fn by(name: &[u8]) -> Held {
        let mut held = Held { lock_at_the_end: name.ends_with(b".lock"), ..Held::default() };
        for (at, b) in name.iter().enumerate().filter(|(_, b)| SPOKEN_OF[**b as usize]) {
            // a name begins as a part does
            let before = if at == 0 { b'/' } else { name[at - 1] };
            match *b {
                b' ' => held.space = true,
                b'~' | b'^' | b':' | b'?' | b'*' | b'[' | b'\\' => held.mark = true,
                b'/' => {
                    held.slash = true;
                    held.two_slashes |= before == b'/';
                    held.lock_at_the_end |= before == b'k' && name[..at].ends_with(b".lock");
                }
                b'.' => {
                    held.dot_in_front |= before == b'/';
                    held.two_dots |= before == b'.';
                }
                b'{' => held.at_brace |= before == b'@',
                _ => held.control = true,
            }
        }
        held
    }
}

/// The name in a record's line without its LF: what stands between the space behind its id and its line end. Of such a line the library has said that only
/// the name is bad.
pub fn name_in(line: &[u8]) -> &[u8] {
    let line = line.strip_suffix(b"\r").unwrap_or(line);
    let spaces = [IdKind::Sha1, IdKind::Sha256].map(IdKind::digits);
    let space = spaces.into_iter().find(|at| line.get(*at) == Some(&b' '));
    space.map_or(&[], |at| &line[at + 1..])
}

#[cfg(test)]
mod tests {
    use super::{broken, name_in};
    use packed_refs::check_name;

    /// Every name of up to six bytes or words out of those that a rule speaks of: a name that the library refuses has its reason, and another has none.
    #[test]
    fn every_refused_name_has_its_rule() {
        let words: [&[u8]; 9] = [b"a", b"/", b".", b".lock", b"@", b"{", b" ", b"~", b"\x1f"];
        let mut names = vec![Vec::new()];
        for _ in 0..6 {
            let longer = names.iter().flat_map(|name: &Vec<u8>| words.iter().map(move |word| [&name[..], *word].concat()));
            let longer: Vec<Vec<u8>> = longer.collect();
            for name in &longer {
                let has_none = broken(name) == "it breaks the name rules";
                assert_eq!(check_name(name).is_ok(), has_none, "{name:?}: {}", broken(name));
            }
            names = longer;
        }
        assert_eq!(broken(b""), "it is empty");
        assert_eq!(broken(b"refs/a.lock"), "a part of it ends with .lock");
        assert_eq!(broken(b"refs/e3.lock/a"), "a part of it ends with .lock");
        assert_eq!(broken(b"refs/a:b"), "it holds one of ~ ^ : ? * [ \\");
    }

    #[test]
    fn a_name_is_cut_out_of_its_line() {
        for id in ["1".repeat(40), "2".repeat(64)] {
            for (behind, name) in [(" refs/a.", "refs/a."), (" refs/a.\r", "refs/a."), ("  refs/a b", " refs/a b"), (" \r", ""), ("", "")] {
                let line = format!("{id}{behind}");
                assert_eq!(name_in(line.as_bytes()), name.as_bytes(), "{line:?}");
            }
        }
    }
}
