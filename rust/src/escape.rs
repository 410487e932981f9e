//! Bytes as text that can be shown on a terminal.
use std::convert::Infallible;
use std::fmt;

/// Shows bytes so that they cannot steer a terminal: what is not printable, or no UTF-8, or a backslash comes as `\xNN`.
///
/// ```
/// use packed_refs::Escaped;
/// assert_eq!(Escaped("refs/s/\u{e4}\x1b[2J\\".as_bytes()).to_string(), "refs/s/\u{e4}\\x1b[2J\\x5c");
/// ```
///
/// No two byte strings are shown alike, and a valid name never holds a backslash.
///
/// `{:?}` puts it in quotes and cuts it off behind 64 bytes, so that no answer's `Debug` prints a file.
#[derive(Clone, Copy)]
pub struct Escaped<'a>(pub &'a [u8]);

impl Escaped<'_> {
    /// Puts it behind other bytes as it is shown: where there is much to be shown, that is faster than formatting.
    ///
    /// ```
    /// use packed_refs::Escaped;
    /// let mut line = b"it reads ".to_vec();
    /// Escaped(b"refs/s/a\r").put_to(&mut line);
    /// assert_eq!(line, b"it reads refs/s/a\\x0d");
    /// ```
    pub fn put_to(&self, bytes: &mut Vec<u8>) {
        let put = self.pieces(|piece| {
            bytes.extend_from_slice(piece);
            Ok::<(), Infallible>(())
        });
        put.unwrap_or_else(|never| match never {});
    }

    /// The pieces that it is shown by, one after another, each of them UTF-8.
    fn pieces<E>(&self, mut put: impl FnMut(&[u8]) -> Result<(), E>) -> Result<(), E> {
        let mut rest = self.0;
        while !rest.is_empty() {
            put(take(&mut rest, plain_at_front))?;
            escape(&mut put, take(&mut rest, |bytes| so_at_front(bytes, |b| b.is_ascii() && !is_plain(b))))?;
            beyond_ascii(&mut put, take(&mut rest, |bytes| so_at_front(bytes, |b| !b.is_ascii())))?;
        }
        Ok(())
    }
}

/// More than this is not shown by `Debug`.
const LONGEST_DEBUG: usize = 64;

impl fmt::Debug for Escaped<'_> {
    fn fmt(&self, f: &mut fmt::Formatter<'_>) -> fmt::Result {
        let shown = &self.0[..self.0.len().min(LONGEST_DEBUG)];
        write!(f, "\"{}\"", Escaped(shown))?;
        match self.0.len() - shown.len() {
            0 => Ok(()),
            more => write!(f, " and {more} bytes more"),
        }
    }
}

impl fmt::Display for Escaped<'_> {
    fn fmt(&self, f: &mut fmt::Formatter<'_>) -> fmt::Result {
        self.pieces(|piece| f.write_str(std::str::from_utf8(piece).unwrap_or_default()))
    }
}

/// Takes off the front as many bytes as are counted there.
fn take<'a>(rest: &mut &'a [u8], count: impl Fn(&[u8]) -> usize) -> &'a [u8] {
    let (front, behind) = rest.split_at(count(rest));
    *rest = behind;
    front
}

fn so_at_front(bytes: &[u8], is_so: impl Fn(u8) -> bool) -> usize {
    bytes.iter().position(|b| !is_so(*b)).unwrap_or(bytes.len())
}

/// Mostly that is all of it, so a block is looked at without a way out at its first byte that is not plain: that is many bytes at a time.
fn plain_at_front(bytes: &[u8]) -> usize {
    let blocks = bytes.chunks_exact(16).take_while(|block| block.iter().fold(true, |all, b| all & is_plain(*b)));
    let whole = 16 * blocks.count();
    whole + so_at_front(&bytes[whole..], is_plain)
}

fn beyond_ascii<E>(put: &mut impl FnMut(&[u8]) -> Result<(), E>, bytes: &[u8]) -> Result<(), E> {
    for chunk in bytes.utf8_chunks() {
        for c in chunk.valid().chars() {
            let mut room = [0; 4];
            let bytes = c.encode_utf8(&mut room).as_bytes();
            match is_shown(c) {
                true => put(bytes)?,
                false => escape(put, bytes)?,
            }
        }
        escape(put, chunk.invalid())?;
    }
    Ok(())
}

/// Whether a character beyond ASCII is shown as it is: the standard library's own list decides, which leaves out controls, marks that change the direction
/// of the text, and marks that join the character before them.
fn is_shown(c: char) -> bool {
    c.escape_debug().count() == 1
}

/// Whether a byte is a character of ASCII that is shown as it is.
fn is_plain(b: u8) -> bool {
    (b' '..=b'~').contains(&b) && b != b'\\'
}

fn escape<E>(put: &mut impl FnMut(&[u8]) -> Result<(), E>, bytes: &[u8]) -> Result<(), E> {
    const DIGITS: &[u8; 16] = b"0123456789abcdef";
    let digit = |value: u8| DIGITS[usize::from(value)];
    bytes.iter().try_for_each(|b| put(&[b'\\', b'x', digit(b >> 4), digit(b & 15)]))
}

#[cfg(test)]
mod tests {
    use super::*;

    /// The same, letter by letter.
    fn by_letters(bytes: &[u8]) -> String {
        let mut shown = String::new();
        for chunk in bytes.utf8_chunks() {
            for c in chunk.valid().chars() {
                match c {
                    '\\' | '\0'..='\x1f' | '\x7f' => shown += &format!("\\x{:02x}", u32::from(c)),
                    c if c.is_ascii() || c.escape_debug().count() == 1 => shown.push(c),
                    c => shown.extend(c.to_string().bytes().map(|b| format!("\\x{b:02x}"))),
                }
            }
            shown.extend(chunk.invalid().iter().map(|b| format!("\\x{b:02x}")));
        }
        shown
    }

    /// Runs of each sort, one behind the other, and sequences that are no UTF-8 cut off by any of them.
    #[test]
    fn runs_are_shown_as_their_letters_are() {
        let words: [&[u8]; 12] = [
            b"a",
            b" ~",
            b"\\",
            b"\r",
            b"\x7f",
            "\u{e4}".as_bytes(),
            "\u{301}".as_bytes(),
            "\u{202e}".as_bytes(),
            "\u{1f600}".as_bytes(),
            b"\xff",
            b"\xe2\x80",
            b"\x9f",
        ];
        for at in 0..words.len().pow(4) {
            let bytes = (0..4).map(|nth| words[at / words.len().pow(nth) % words.len()]).collect::<Vec<_>>().concat();
            let shown = Escaped(&bytes).to_string();
            assert_eq!(shown, by_letters(&bytes), "{bytes:?}");
            let mut behind = b"it reads ".to_vec();
            Escaped(&bytes).put_to(&mut behind);
            assert_eq!(behind, format!("it reads {shown}").as_bytes());
        }
        assert_eq!(Escaped(b"").to_string(), "");
    }
}
