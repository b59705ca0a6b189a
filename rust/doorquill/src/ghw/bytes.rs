//! A cursor over the file, and the error that names a byte of it.
use std::fmt;

/// Why a file is not read as a GHW file: what is wrong, and at which byte.
#[derive(Clone, Debug, PartialEq, Eq)]
pub struct HeaderError {
    /// The byte, counted from the file's first; the file's length where the file ends too early.
    pub place: usize,
    /// What sort of fault it is.
    pub fault: HeaderFault,
    /// What is wrong, in words.
    pub sentence: String,
}

/// The sorts of faults before the sections.
#[derive(Clone, Copy, Debug, PartialEq, Eq)]
pub enum HeaderFault {
    /// The file is compressed, as a whole, by the program of this name.
    Compressed(&'static str),
    /// The file does not begin as a GHW file does.
    NotGhw,
    /// The file ends before its sections begin.
    Ended,
    /// Some part is not of the form that it must have.
    Form,
}

impl fmt::Display for HeaderError {
    fn fmt(&self, f: &mut fmt::Formatter<'_>) -> fmt::Result {
        write!(f, "{}, at byte {} of the file", self.sentence, self.place)
    }
}

impl std::error::Error for HeaderError {}

/// The fault of a part's form.
pub(super) fn form<T>(place: usize, sentence: impl Into<String>) -> Result<T, HeaderError> {
    Err(HeaderError { place, fault: HeaderFault::Form, sentence: sentence.into() })
}

/// The bytes of the file, read from left to right.
pub(super) struct Cursor<'a> {
    file: &'a [u8],
    at: usize,
    /// The byte order of fixed-size integers.
    pub big_endian: bool,
    /// The part that is being read, for the sentences.
    pub part: &'static str,
}

impl<'a> Cursor<'a> {
    pub fn new(file: &'a [u8], part: &'static str) -> Cursor<'a> {
        Cursor { file, at: 0, big_endian: false, part }
    }

    /// The next byte's place.
    pub fn at(&self) -> usize {
        self.at
    }

    /// Bytes not read yet.
    pub fn left(&self) -> usize {
        self.file.len() - self.at
    }

    /// The next `count` bytes.
    pub fn take(&mut self, count: usize) -> Result<&'a [u8], HeaderError> {
        match self.file[self.at..].get(..count) {
            Some(bytes) => {
                self.at += count;
                Ok(bytes)
            }
            None => Err(HeaderError {
                place: self.file.len(),
                fault: HeaderFault::Ended,
                sentence: format!("the file ends inside {}", self.part),
            }),
        }
    }

    pub fn byte(&mut self) -> Result<u8, HeaderError> {
        Ok(self.take(1)?[0])
    }

    pub fn array<const N: usize>(&mut self) -> Result<[u8; N], HeaderError> {
        let mut out = [0; N];
        out.copy_from_slice(self.take(N)?);
        Ok(out)
    }

    /// A 32-bit number, by the byte order.
    pub fn u32(&mut self) -> Result<u32, HeaderError> {
        let bytes = self.array()?;
        Ok(if self.big_endian { u32::from_be_bytes(bytes) } else { u32::from_le_bytes(bytes) })
    }

    /// Eight bytes of a real, by the byte order.
    pub fn f64(&mut self) -> Result<f64, HeaderError> {
        let bytes = self.array()?;
        Ok(if self.big_endian { f64::from_be_bytes(bytes) } else { f64::from_le_bytes(bytes) })
    }

    /// An unsigned LEB128 number.
    pub fn unsigned(&mut self) -> Result<u64, HeaderError> {
        Ok(self.leb128(|last| last <= 1)?.0)
    }

    /// A signed LEB128 number.
    pub fn signed(&mut self) -> Result<i64, HeaderError> {
        let (number, bits, last) = self.leb128(|last| last == 0 || last == 0x7f)?;
        let negative = last & 0x40 != 0;
        Ok(if negative && bits < 64 { (number | u64::MAX << bits) as i64 } else { number as i64 })
    }

    /// A number's bits, how many there are (70 of the longest form), and its last byte; `tenth` judges a tenth byte.
    fn leb128(&mut self, tenth: impl Fn(u8) -> bool) -> Result<(u64, u32, u8), HeaderError> {
        let from = self.at;
        let mut number = 0;
        for place in 0..10 {
            let byte = self.byte()?;
            if place == 9 && !tenth(byte) {
                break;
            }
            number |= u64::from(byte & 0x7f) << (7 * place);
            if byte & 0x80 == 0 {
                return Ok((number, 7 * (place + 1), byte));
            }
        }
        form(from, "a LEB128 number of more than 64 bits")
    }

    /// A mark of three letters and a zero byte.
    pub fn mark(&mut self, letters: &str) -> Result<(), HeaderError> {
        let from = self.at;
        let found = self.take(4)?;
        if &found[..3] == letters.as_bytes() && found[3] == 0 {
            return Ok(());
        }
        form(from, format!("the mark {letters} must stand here"))
    }

    /// A part's mark and the four zero bytes behind it.
    pub fn begin(&mut self, letters: &str, part: &'static str) -> Result<(), HeaderError> {
        self.part = part;
        self.mark(letters)?;
        let from = self.at;
        if self.array()? == [0; 4] {
            return Ok(());
        }
        form(from, format!("four zero bytes must follow the mark {letters}"))
    }
}

#[cfg(test)]
mod tests {
    use super::*;

    fn unsigned(bytes: &[u8]) -> Option<u64> {
        Cursor::new(bytes, "a test").unsigned().ok()
    }

    fn signed(bytes: &[u8]) -> Option<i64> {
        Cursor::new(bytes, "a test").signed().ok()
    }

    #[test]
    fn numbers_as_document_01_has_them() {
        let nine = |byte: u8, last: u8| [vec![byte; 9], vec![last]].concat();
        assert_eq!(unsigned(&[0x7f]), Some(127));
        assert_eq!(unsigned(&[0x80, 0x01]), Some(128));
        assert_eq!(unsigned(&[0xb9, 0x64]), Some(12857));
        assert_eq!(unsigned(&[0x80, 0x00]), Some(0));
        assert_eq!(unsigned(&nine(0xff, 1)), Some(u64::MAX));
        assert_eq!(unsigned(&nine(0xff, 2)), None);
        assert_eq!(unsigned(&[0x80; 9]), None);
        assert_eq!(signed(&[0x7e]), Some(-2));
        assert_eq!(signed(&[0x80, 0x7f]), Some(-128));
        assert_eq!(signed(&[0xff, 0x7e]), Some(-129));
        assert_eq!(signed(&nine(0x80, 0x7f)), Some(i64::MIN));
        assert_eq!(signed(&nine(0xff, 0)), Some(i64::MAX));
        assert_eq!(signed(&nine(0xff, 1)), None);
    }
}
