//! Whole `.ghw` files: what stands before the sections is read here, in plain Rust; it is not proved.
//!
//! [`open`] reads header, strings, types and hierarchy, and gives a [`Trace`]: the signals by their names, the tables
//! that the proved calls want, and where the sections begin. Any bytes at all may be put to it.
//!
//! ```no_run
//! let file = std::fs::read("rbc.ghw")?;
//! let trace = doorquill::ghw::open(&file)?;
//! let reading = doorquill::read_sections(trace.tables(), trace.big_endian(), trace.sections())?;
//! if let Some(clock) = trace.find("rbc.clk") {
//!     println!("{} is a {} of {} bits", clock.path(), clock.type_name(), clock.width());
//! }
//! # Ok::<(), Box<dyn std::error::Error>>(())
//! ```
mod bytes;
mod gather;
mod hierarchy;
mod strings;
mod trace;
mod types;

pub use bytes::{HeaderError, HeaderFault};
pub use hierarchy::{Direction, ScopeKind};
pub use trace::{Relation, Scope, Signal, Trace, Values};

use bytes::{form, Cursor};
use hierarchy::Hierarchy;
use strings::Strings;
use types::Types;

/// The most bytes before the sections, so that whatever is counted there fits 32 bits.
const MOST: usize = 1 << 30;

/// Reads all of a file that stands before its sections.
///
/// Memory stays within a small multiple of the file's size. Refused are, besides what does not have the form of a GHW
/// file, strings of more than 65,535 bytes, types nested more than 32 deep, scopes nested more than 1,024 deep, and
/// more than 1,073,741,824 bytes before the sections.
pub fn open(file: &[u8]) -> Result<Trace<'_>, HeaderError> {
    let before = &file[..file.len().min(MOST)];
    read(file, before).map_err(|error| match error.fault {
        HeaderFault::Ended if before.len() < file.len() => HeaderError {
            fault: HeaderFault::Form,
            sentence: format!("more than {MOST} bytes before the sections"),
            ..error
        },
        _ => error,
    })
}

/// Reads the parts, which must end within the bytes `before`.
fn read<'a>(file: &'a [u8], before: &'a [u8]) -> Result<Trace<'a>, HeaderError> {
    let mut cursor = Cursor::new(before, "the header");
    let minor = header(before, &mut cursor)?;
    let strings = Strings::read(before, &mut cursor)?;
    let types = Types::read(&mut cursor, &strings, minor)?;
    well_known(&mut cursor, &types)?;
    let hierarchy = Hierarchy::read(&mut cursor, &strings, &types)?;
    cursor.part = "the mark that ends the hierarchy";
    cursor.mark("EOH")?;
    Ok(Trace::new(file, cursor.at(), cursor.big_endian, strings, types, hierarchy))
}

/// The 16 bytes of the header: the byte order goes to the cursor; the minor version.
fn header(file: &[u8], cursor: &mut Cursor) -> Result<u8, HeaderError> {
    for (start, program, unpack) in [(&[0x1f, 0x8b][..], "gzip", "gunzip"), (b"BZ", "bzip2", "bunzip2")] {
        if file.starts_with(start) {
            let sentence = format!("the file is compressed by {program}: unpack it first, by {unpack}");
            return Err(HeaderError { place: 0, fault: HeaderFault::Compressed(program), sentence });
        }
    }
    let magic = b"GHDLwave\n";
    if !file.starts_with(&magic[..magic.len().min(file.len())]) {
        let sentence = "no GHW file: it does not begin with the word GHDLwave and a newline".into();
        return Err(HeaderError { place: 0, fault: HeaderFault::NotGhw, sentence });
    }
    cursor.take(magic.len())?;
    let [length, major, minor, order, word, offset, zero] = cursor.array()?;
    if length != 16 {
        return form(9, format!("the header's length is {length}, and must be 16"));
    }
    if major != 0 || minor > 1 {
        return form(10, format!("version {major}.{minor}: only 0.0 and 0.1 are known"));
    }
    cursor.big_endian = match order {
        1 => false,
        2 => true,
        _ => return form(12, format!("the byte order is {order}, and must be 1, little, or 2, big")),
    };
    if word != 4 {
        return form(13, format!("words of {word} bytes: they must have 4"));
    }
    if !matches!(offset, 1 | 4 | 8) {
        return form(14, format!("offsets of {offset} bytes: they have 1, 4 or 8"));
    }
    if zero != 0 {
        return form(15, "the header's last byte must be zero");
    }
    Ok(minor)
}

/// The well-known types: pairs of a byte and a type's number, which nothing here leans on.
fn well_known(cursor: &mut Cursor, types: &Types) -> Result<(), HeaderError> {
    cursor.begin("WKT", "the well-known types")?;
    while cursor.byte()? != 0 {
        types.number(cursor)?;
    }
    Ok(())
}
