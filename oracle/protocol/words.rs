// The words of a line: numbers and bytes.
use std::str::FromStr;

// The most bytes that a request may ask room for.
const MOST_ROOM: usize = 70_000;

// The words of a request, taken one after the other.
pub struct Words<'a>(std::str::Split<'a, char>);

impl<'a> Words<'a> {
    pub fn of(line: &'a str) -> Self {
        Words(line.split(' '))
    }

    pub fn word(&mut self) -> Option<&'a str> {
        self.0.next()
    }

    // A decimal number of the wanted width.
    pub fn number<N: FromStr>(&mut self) -> Option<N> {
        let word = self.word()?;
        let digits = word.strip_prefix('-').unwrap_or(word);
        if digits.is_empty() || !digits.bytes().all(|b| b.is_ascii_digit()) {
            return None;
        }
        word.parse().ok()
    }

    // The length of a buffer to be written.
    pub fn capacity(&mut self) -> Option<usize> {
        self.number().filter(|capacity| *capacity <= MOST_ROOM)
    }

    pub fn bytes(&mut self) -> Option<Vec<u8>> {
        hex(self.word()?)
    }

    pub fn bit(&mut self) -> Option<bool> {
        match self.word()? {
            "0" => Some(false),
            "1" => Some(true),
            _ => None,
        }
    }

    // `-` for the application tag, else a context number.
    pub fn context(&mut self) -> Option<Option<u8>> {
        let mut rest = self.0.clone();
        if rest.next()? == "-" {
            self.0 = rest;
            return Some(None);
        }
        self.number().map(Some)
    }

    // Whether no word is left.
    pub fn done(&mut self) -> Option<()> {
        match self.0.next() {
            None => Some(()),
            Some(_) => None,
        }
    }
}

fn digit(byte: u8) -> Option<u8> {
    match byte {
        b'0'..=b'9' => Some(byte - b'0'),
        b'a'..=b'f' => Some(byte - b'a' + 10),
        _ => None,
    }
}

// The bytes of hexadecimal digits in lower case, `-` for none.
pub fn hex(word: &str) -> Option<Vec<u8>> {
    if word == "-" {
        return Some(Vec::new());
    }
    let digits = word.as_bytes();
    if digits.is_empty() || digits.len() % 2 != 0 {
        return None;
    }
    digits.chunks(2).map(|pair| Some(digit(pair[0])? << 4 | digit(pair[1])?)).collect()
}

// Appends the hexadecimal digits of bytes, `-` for none.
pub fn put_hex(bytes: &[u8], out: &mut String) {
    if bytes.is_empty() {
        out.push('-');
    }
    for byte in bytes {
        out.push(char::from(b"0123456789abcdef"[usize::from(byte >> 4)]));
        out.push(char::from(b"0123456789abcdef"[usize::from(byte & 15)]));
    }
}
