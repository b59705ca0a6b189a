//! Stand-in for the crate leb128, written from DWARF 5 section 7.6: seven bits a byte, least first, the high bit says
//! that another byte follows; the sign of a signed number is the second highest bit of its last byte. Numbers of
//! 64 bits, so at most ten bytes, and the tenth carries one bit: 0 or 1 (unsigned), 0 or 127 (signed).

const MORE: u8 = 0x80;
const SIGN: u8 = 0x40;

pub mod read {
    use super::{MORE, SIGN};
    use std::cell::Cell;
    use std::fmt;
    use std::io;

    #[derive(Debug)]
    pub enum Error {
        IoError(io::Error),
        Overflow,
    }

    impl From<io::Error> for Error {
        fn from(e: io::Error) -> Self {
            Error::IoError(e)
        }
    }

    impl fmt::Display for Error {
        fn fmt(&self, f: &mut fmt::Formatter<'_>) -> fmt::Result {
            match self {
                Error::IoError(e) => write!(f, "{}", e),
                Error::Overflow => write!(f, "the number doesn't fit 64 bits"),
            }
        }
    }

    impl std::error::Error for Error {}

    thread_local! {
        /// How many bytes of the number that failed last had been taken.
        pub static TAKEN: Cell<u32> = Cell::new(0);
    }

    #[cold]
    fn failed(taken: u32, error: Error) -> Error {
        TAKEN.with(|t| t.set(taken));
        error
    }

    /// The bits of a number, how many of them were given, and its last byte.
    #[inline]
    fn number<R: ?Sized + io::Read>(r: &mut R, top: u8) -> Result<(u64, u32, u8), Error> {
        let mut bits = 0u64;
        let mut shift = 0u32;
        loop {
            let mut byte = [0u8];
            if let Err(e) = r.read_exact(&mut byte) {
                return Err(failed(shift / 7, e.into()));
            }
            let byte = byte[0];
            if shift == 63 && byte != 0 && byte != top {
                return Err(failed(10, Error::Overflow));
            }
            bits |= u64::from(byte & !MORE) << shift;
            shift += 7;
            if byte & MORE == 0 {
                return Ok((bits, shift, byte));
            }
        }
    }

    #[inline]
    pub fn unsigned<R: ?Sized + io::Read>(r: &mut R) -> Result<u64, Error> {
        number(r, 1).map(|(bits, _, _)| bits)
    }

    #[inline]
    pub fn signed<R: ?Sized + io::Read>(r: &mut R) -> Result<i64, Error> {
        let (bits, given, last) = number(r, 127)?;
        let above = if given < 64 && last & SIGN != 0 { u64::MAX << given } else { 0 };
        Ok((bits | above) as i64)
    }
}

pub mod write {
    use super::{MORE, SIGN};
    use std::io;

    pub fn unsigned<W: ?Sized + io::Write>(w: &mut W, mut number: u64) -> Result<usize, io::Error> {
        let mut count = 1;
        while number >= u64::from(MORE) {
            w.write_all(&[(number % 128) as u8 | MORE])?;
            number /= 128;
            count += 1;
        }
        w.write_all(&[number as u8])?;
        Ok(count)
    }

    pub fn signed<W: ?Sized + io::Write>(w: &mut W, mut number: i64) -> Result<usize, io::Error> {
        let mut count = 1;
        while number < -i64::from(SIGN) || number >= i64::from(SIGN) {
            w.write_all(&[(number & 127) as u8 | MORE])?;
            number >>= 7;
            count += 1;
        }
        w.write_all(&[(number & 127) as u8])?;
        Ok(count)
    }
}
