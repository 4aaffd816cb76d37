//! The card: seven lines key=value (rule 1).

use super::Kind;

#[derive(Clone, Copy, PartialEq, Eq, Debug)]
pub struct Card {
    pub kind: Kind,
    pub production: bool,
    pub gprs: u32,
    pub temps: u32,
    pub consts: u32,
    pub stack: u32,
    pub quads: u32,
}

/// Reads a card from the beginning of `bytes`; the number of the first line that is not exactly right, if one is not.
pub fn parse(bytes: &[u8]) -> Result<Card, usize> {
    let mut lines = Lines { rest: bytes, number: 0 };
    let kind = match lines.value(b"kind=")? {
        b"ps" => Kind::Pixel,
        b"vs" => Kind::Vertex,
        b"gs" => Kind::Geometry,
        _ => return Err(1),
    };
    let production = match lines.value(b"build=")? {
        b"production" => true,
        b"debug" => false,
        _ => return Err(2),
    };
    let gprs = lines.number(b"gprs=", 1, 128)?;
    // gprs+temps above 128 is line 4's fault: gprs alone is good here.
    let temps = lines.number(b"temps=", 0, (128 - gprs).min(4))?;
    let consts = lines.number(b"consts=", 0, 256)?;
    let stack = lines.number(b"stack=", 0, 32)?;
    let quads = lines.number(b"quads=", 1, 8192)?;
    Ok(Card { kind, production, gprs, temps, consts, stack, quads })
}

struct Lines<'a> {
    rest: &'a [u8],
    number: usize,
}

impl<'a> Lines<'a> {
    /// The value of the next line, which has to begin with `key` and end with a line feed.
    fn value(&mut self, key: &[u8]) -> Result<&'a [u8], usize> {
        self.number += 1;
        let end = self.rest.iter().position(|&byte| byte == b'\n').ok_or(self.number)?;
        let (line, rest) = self.rest.split_at(end);
        self.rest = &rest[1..];
        line.strip_prefix(key).ok_or(self.number)
    }

    fn number(&mut self, key: &[u8], least: u32, most: u32) -> Result<u32, usize> {
        let value = self.value(key)?;
        decimal(value, most).filter(|&number| number >= least).ok_or(self.number)
    }
}

/// A decimal number without sign or leading zeros, at most `most`.
fn decimal(digits: &[u8], most: u32) -> Option<u32> {
    if digits.is_empty() || (digits[0] == b'0' && digits.len() > 1) {
        return None;
    }
    let mut number = 0;
    for &byte in digits {
        if !byte.is_ascii_digit() {
            return None;
        }
        number = 10 * number + u32::from(byte - b'0');
        if number > most {
            return None; // before it could overflow, however long it is
        }
    }
    Some(number)
}

#[cfg(test)]
mod tests {
    use super::*;

    fn line_at_fault(text: &str) -> usize {
        parse(text.as_bytes()).map_or_else(|line| line, |_| 0)
    }

    #[test]
    fn lines_are_exact() {
        let good = "kind=ps\nbuild=production\ngprs=2\ntemps=0\nconsts=0\nstack=0\nquads=3\n";
        assert_eq!(line_at_fault(good), 0);
        assert_eq!(line_at_fault(""), 1);
        assert_eq!(line_at_fault(&good[..good.len() - 1]), 7);
        for (line, from, to) in [
            (1, "ps", "Ps"),
            (1, "ps\n", "ps\r\n"),
            (2, "build=", "build ="),
            (3, "gprs=2", "gprs=0"),
            (3, "gprs=2", "gprs=129"),
            (3, "gprs=2", "gprs=02"),
            (3, "gprs=2", "gprs=4294967298"),
            (4, "temps=0", "temps=5"),
            (4, "gprs=2\ntemps=0", "gprs=128\ntemps=1"),
            (4, "temps=0", "temps=00"),
            (5, "consts=0", "consts="),
            (5, "consts=0", "consts=257"),
            (6, "stack=0", "stack=+1"),
            (6, "stack=0", "stack=33"),
            (7, "quads=3", "quads=0"),
            (7, "quads=3", "quads=8193"),
            (4, "gprs=2", "gprs=2\n"),
        ] {
            assert_eq!(line_at_fault(&good.replace(from, to)), line, "{from:?} to {to:?}");
        }
    }
}
