//! A line of words put together piece by piece. A report may have a million of them, for which the formatting of the standard library is slow.
use packed_refs::Escaped;

/// The digits of 0 to 99.
const PAIRS: [[u8; 2]; 100] = {
    let mut pairs = [[0; 2]; 100];
    let mut at = 0;
    while at < 100 {
        pairs[at] = [b'0' + at as u8 / 10, b'0' + at as u8 % 10];
        at += 1;
    }
    pairs
};

/// The line so far. What it was put together in can be used again.
#[derive(Default)]
pub struct Line(Vec<u8>);

impl Line {
    pub fn clear(&mut self) -> &mut Line {
        self.0.clear();
        self
    }

    pub fn text(&mut self, text: &str) -> &mut Line {
        self.0.extend_from_slice(text.as_bytes());
        self
    }

    /// A number in decimal digits.
    pub fn number(&mut self, number: u64) -> &mut Line {
        let mut digits = [0; 20];
        let (mut from, mut rest) = (digits.len(), number);
        while rest >= 10 {
            from -= 2;
            digits[from..from + 2].copy_from_slice(&PAIRS[(rest % 100) as usize]);
            rest /= 100;
        }
        // One digit is left where their count is odd.
        if rest > 0 || number == 0 {
            from -= 1;
            digits[from] = b'0' + rest as u8;
        }
        self.0.extend_from_slice(&digits[from..]);
        self
    }

    /// Bytes of a file, so that they do not steer a terminal.
    pub fn escaped(&mut self, bytes: &[u8]) -> &mut Line {
        Escaped(bytes).put_to(&mut self.0);
        self
    }

    /// The bytes, with the line end.
    pub fn end(&mut self) -> &[u8] {
        self.0.push(b'\n');
        &self.0
    }
}

#[cfg(test)]
mod tests {
    use super::Line;

    #[test]
    fn a_line_is_what_formatting_gives() {
        let mut line = Line::default();
        for number in (0..1100).chain((0..64).flat_map(|bits| [(1 << bits) - 1, 1 << bits])).chain([10_u64.pow(19) - 1, u64::MAX]) {
            for bytes in [&b""[..], b"refs/s/a", b"\x1b[2J\\\xff", "\u{e4}".as_bytes()] {
                let expected = format!("{number} it reads {}, {number}\n", packed_refs::Escaped(bytes));
                assert_eq!(
                    line.clear().number(number).text(" it reads ").escaped(bytes).text(", ").number(number).end(),
                    expected.as_bytes()
                );
            }
        }
    }
}
