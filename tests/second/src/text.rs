//! What document 01 says of every text: bytes, names, and why one is turned back.

/// A refusal: its number and the place in the text, 0 where none is named.
#[derive(Clone, Copy, Debug, PartialEq, Eq, PartialOrd, Ord)]
pub struct Refused {
    pub number: u32,
    pub place: usize,
}

pub fn refused(number: u32, place: usize) -> Refused {
    Refused { number, place }
}

pub const MAX_NAME: usize = 31;

pub fn is_blank(b: u8) -> bool {
    matches!(b, b' ' | b'\t' | b'\n')
}

pub fn starts_name(b: u8) -> bool {
    b.is_ascii_alphabetic() || b == b'_'
}

pub fn continues_name(b: u8) -> bool {
    starts_name(b) || b.is_ascii_digit() || b == b'-' || b == b'.'
}

pub fn is_foreign(b: u8) -> bool {
    !(b == 0x09 || b == 0x0A || (0x20..=0x7E).contains(&b))
}

/// Refusals 2 and 3, which come before those of a grammar.
pub fn plain(text: &[u8], limit: usize) -> Result<(), Refused> {
    if text.is_empty() || text.len() > limit {
        return Err(refused(2, 0));
    }
    match text.iter().position(|&b| is_foreign(b)) {
        Some(place) => Err(refused(3, place)),
        None => Ok(()),
    }
}

/// A text that is read from left to right. What fails names the byte at which it fails.
pub struct Reader<'a> {
    pub text: &'a [u8],
    pub place: usize,
}

pub type Read<T> = Result<T, usize>;

impl<'a> Reader<'a> {
    pub fn new(text: &'a [u8]) -> Self {
        Reader { text, place: 0 }
    }

    pub fn peek(&self) -> Option<u8> {
        self.text.get(self.place).copied()
    }

    pub fn fail<T>(&self) -> Read<T> {
        Err(self.place)
    }

    pub fn take(&mut self, b: u8) -> bool {
        let same = self.peek() == Some(b);
        if same {
            self.place += 1;
        }
        same
    }

    pub fn expect(&mut self, b: u8) -> Read<()> {
        if self.take(b) {
            Ok(())
        } else {
            self.fail()
        }
    }

    pub fn word(&mut self, w: &str) -> Read<()> {
        w.bytes().try_for_each(|b| self.expect(b))
    }

    pub fn blanks(&mut self) {
        while self.peek().is_some_and(is_blank) {
            self.place += 1;
        }
    }

    pub fn required_blanks(&mut self) -> Read<()> {
        if !self.peek().is_some_and(is_blank) {
            return self.fail();
        }
        self.blanks();
        Ok(())
    }

    /// A name and its place.
    pub fn name(&mut self) -> Read<(Vec<u8>, usize)> {
        let start = self.place;
        if !self.peek().is_some_and(starts_name) {
            return self.fail();
        }
        while self.peek().is_some_and(continues_name) {
            if self.place - start == MAX_NAME {
                return self.fail();
            }
            self.place += 1;
        }
        Ok((self.text[start..self.place].to_vec(), start))
    }
}
