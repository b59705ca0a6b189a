//! The strings, front-compressed: kept as they are in the file, each a chain of pieces, so that sharing a long
//! beginning a million times costs a million numbers.
use super::bytes::{form, Cursor, HeaderError};

/// The longest string that is taken: no identifier comes near it, and every name that is written out stays small.
const LONGEST: usize = 65_535;

/// Some bytes of the file, behind those of another piece.
struct Piece {
    /// The piece before, 0 for none.
    before: u32,
    from: usize,
    /// The length of the string that ends with this piece.
    total: usize,
}

/// The string table. Number 0 is the anonymous name.
pub(super) struct Strings<'a> {
    file: &'a [u8],
    /// Piece 0 is the empty string.
    pieces: Vec<Piece>,
    /// The last piece of each string.
    ends: Vec<u32>,
}

impl<'a> Strings<'a> {
    pub fn read(file: &'a [u8], cursor: &mut Cursor<'a>) -> Result<Strings<'a>, HeaderError> {
        cursor.begin("STR", "the strings")?;
        let place = cursor.at();
        let count = cursor.u32()?;
        let _size = cursor.u32()?;
        if count as usize > cursor.left() {
            return form(place, format!("{count} strings in the {} bytes that are left", cursor.left()));
        }
        let mut strings = Strings { file, pieces: vec![Piece { before: 0, from: 0, total: 0 }], ends: vec![0] };
        let mut shared = 0;
        for _ in 0..count {
            shared = strings.read_one(cursor, shared)?;
        }
        cursor.mark("EOS")?;
        Ok(strings)
    }

    /// One string, of which the first `shared` bytes are the last string's; and how many the next one shares with it.
    fn read_one(&mut self, cursor: &mut Cursor<'a>, shared: usize) -> Result<usize, HeaderError> {
        let before = self.cut(shared);
        let from = cursor.at();
        let mut byte = cursor.byte()?;
        while !matches!(byte, 0..=31 | 128..=159) {
            byte = cursor.byte()?;
        }
        let place = cursor.at() - 1;
        let total = shared + (place - from);
        if total > LONGEST {
            return form(from, format!("a string of {total} bytes: more than {LONGEST}"));
        }
        let end = if total > shared { self.push(Piece { before, from, total }) } else { before };
        self.ends.push(end);
        let next = shared_length(cursor, byte, place)?;
        if next > total {
            return form(place, format!("the next string shares {next} bytes with one of {total}"));
        }
        Ok(next)
    }

    /// The piece that ends the last string's first `length` bytes.
    fn cut(&mut self, length: usize) -> u32 {
        let mut end = self.ends.last().copied().unwrap_or(0);
        loop {
            let piece = &self.pieces[end as usize];
            let before = piece.before;
            if piece.total <= length {
                return end;
            }
            if self.pieces[before as usize].total < length {
                let trimmed = Piece { before, from: piece.from, total: length };
                return self.push(trimmed);
            }
            end = before;
        }
    }

    fn push(&mut self, piece: Piece) -> u32 {
        self.pieces.push(piece);
        (self.pieces.len() - 1) as u32
    }

    /// A string's number, read and checked.
    pub fn number(&self, cursor: &mut Cursor) -> Result<u32, HeaderError> {
        let place = cursor.at();
        let number = cursor.unsigned()?;
        match usize::try_from(number) {
            Ok(n) if n < self.ends.len() => Ok(n as u32),
            _ => form(place, format!("string {number} of {}", self.ends.len() - 1)),
        }
    }

    /// The text of a string: Latin-1 in the file.
    pub fn text(&self, number: u32) -> String {
        let mut parts = vec![];
        let mut end = self.ends.get(number as usize).copied().unwrap_or(0);
        while end != 0 {
            let piece = &self.pieces[end as usize];
            let length = piece.total - self.pieces[piece.before as usize].total;
            parts.push(&self.file[piece.from..piece.from + length]);
            end = piece.before;
        }
        parts.iter().rev().flat_map(|part| part.iter()).map(|&byte| char::from(byte)).collect()
    }
}

/// A shared length: the low five bits of the byte that ended a string and, while bytes are 128 or more, of those that
/// follow, low bits first.
fn shared_length(cursor: &mut Cursor, first: u8, place: usize) -> Result<usize, HeaderError> {
    let mut length = usize::from(first & 31);
    let mut byte = first;
    let mut bits = 5;
    while byte >= 128 {
        byte = cursor.byte()?;
        let more = usize::from(byte & 31);
        if bits > 15 && more != 0 {
            return form(place, format!("the next string shares more than {LONGEST} bytes"));
        }
        if bits <= 15 {
            length |= more << bits;
        }
        bits += 5;
    }
    Ok(length)
}

#[cfg(test)]
mod tests {
    use super::*;

    fn read(body: &[u8], count: u8) -> Result<Vec<String>, HeaderError> {
        let file = [b"STR\0\0\0\0\0", &[count, 0, 0, 0, 0, 0, 0, 0][..], body, b"EOS\0"].concat();
        let strings = Strings::read(&file, &mut Cursor::new(&file, "a test"))?;
        Ok((0..=u32::from(count)).map(|n| strings.text(n)).collect())
    }

    #[test]
    fn beginnings_are_shared() {
        assert_eq!(read(b"", 0).unwrap(), [""]);
        let body = b"reassembly\x01unning\x00s_bv\x02close\x02frag\x00";
        assert_eq!(read(body, 5).unwrap(), ["", "reassembly", "running", "s_bv", "s_close", "s_frag"]);
        // cut inside a piece, inside the piece before, and a string that is a beginning of the last
        assert_eq!(read(b"abcd\x04ef\x03x\x02\x02yy\x00", 5).unwrap(), ["", "abcd", "abcdef", "abcx", "ab", "abyy"]);
        // 33 is 1 and, five bits further, 1
        let long = "a".repeat(40);
        let body = [long.as_bytes(), &[128 | 1, 1], b"b\0"].concat();
        assert_eq!(read(&body, 2).unwrap()[2], "a".repeat(33) + "b");
        // Latin-1
        assert_eq!(read(b"\xe9t\xe9\0", 1).unwrap()[1], "été");
    }

    #[test]
    fn what_is_not_a_string_table() {
        let error = |body: &[u8], count| {
            let e = read(body, count).unwrap_err();
            (e.place, e.sentence)
        };
        assert_eq!(error(b"ab\x03c\0", 2), (18, "the next string shares 3 bytes with one of 2".into()));
        assert_eq!(error(b"", 9), (8, "9 strings in the 4 bytes that are left".into()));
        assert_eq!(error(b"ab\0c\0", 1), (19, "the mark EOS must stand here".into()));
        assert_eq!(error(b"ab\x81\x80\x80\x80\x81\x00", 2).0, 18);
        assert_eq!(error(b"ab", 1).1, "the file ends inside the strings");
    }
}
