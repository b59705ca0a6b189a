//! The types, each resolved as it is read: what it spans is known before a signal has it.
use super::bytes::{form, Cursor, HeaderError};
use super::strings::Strings;

/// The deepest nest of records and arrays that is taken.
const DEEPEST: u32 = 32;

/// What a scalar's values are.
#[derive(Clone, Copy, Debug, PartialEq, Eq)]
pub(super) enum Letters {
    Nine,
    Two,
    Other,
}

/// The bounds of a scalar or of an array's dimension.
#[derive(Clone, Debug, PartialEq)]
pub(super) enum Range {
    Whole { down: bool, left: i64, right: i64 },
    Real { down: bool, left: f64, right: f64 },
}

impl Range {
    /// What it spans; none of a real one.
    fn length(&self) -> Option<u64> {
        match *self {
            Range::Whole { down, left, right } => {
                let (low, high) = if down { (right, left) } else { (left, right) };
                let span = i128::from(high) - i128::from(low) + 1;
                Some(u64::try_from(span.max(0)).unwrap_or(u64::MAX))
            }
            Range::Real { .. } => None,
        }
    }

    /// The index at a position from the left.
    fn index(&self, position: u64) -> i64 {
        match *self {
            Range::Whole { down: true, left, .. } => left.wrapping_sub(position as i64),
            Range::Whole { left, .. } => left.wrapping_add(position as i64),
            Range::Real { .. } => 0,
        }
    }
}

/// An element of a record.
#[derive(Clone, Debug)]
pub(super) struct Field {
    pub name: u32,
    pub of: usize,
}

/// What a type is.
#[derive(Clone, Debug)]
pub(super) enum Body {
    Enumeration {
        literals: Vec<u32>,
        letters: Letters,
    },
    Integer,
    Real,
    Physical {
        units: Vec<(u32, i64)>,
    },
    /// A subtype of a scalar; `root` is no subtype.
    Scalar {
        base: usize,
        root: usize,
        range: Range,
    },
    /// An array without bounds, by a type for each dimension.
    Open {
        element: usize,
        indices: Vec<usize>,
    },
    /// An array with bounds; `root` is the open one.
    Array {
        base: usize,
        root: usize,
        element: usize,
        ranges: Vec<Range>,
    },
    /// A record. Of its elements only those that have scalars; `ends` counts the scalars up to each one's end. `all`
    /// are all of them, where some are open.
    Record {
        base: Option<usize>,
        fields: Vec<Field>,
        ends: Vec<u64>,
        all: Option<Vec<Field>>,
    },
    /// Another name for an open array or record.
    Renamed {
        root: usize,
    },
}

/// A type, with what it comes to.
#[derive(Clone, Debug)]
pub(super) struct Type {
    pub name: u32,
    pub body: Body,
    /// How many scalars a signal of it has; 0 where it is open.
    pub scalars: u64,
    /// Without bounds, itself or in an element.
    pub open: bool,
    depth: u32,
}

/// The type table: the file's types, and those that bounds within bounds make.
pub(super) struct Types {
    all: Vec<Type>,
    /// Where the types with a number are, from number 1 on.
    numbered: Vec<usize>,
    /// Elements of records that may still be stored: a subtype repeats its record's, which the file does not.
    elements_left: usize,
}

/// How one part of a name is reached: an element of a record by its name, or of an array by its indices.
pub(super) enum Step<'t> {
    Field(u32),
    Index(&'t [Range], &'t [usize], u64),
}

impl Types {
    pub fn read(cursor: &mut Cursor, strings: &Strings, minor: u8) -> Result<Types, HeaderError> {
        cursor.begin("TYP", "the types")?;
        let place = cursor.at();
        let count = cursor.u32()?;
        if count as usize > cursor.left() {
            return form(place, format!("{count} types in the {} bytes that are left", cursor.left()));
        }
        let mut types = Types { all: vec![], numbered: vec![], elements_left: 1_000_000 + 4 * cursor.left() };
        for _ in 0..count {
            let read = types.read_one(cursor, strings, minor)?;
            types.numbered.push(read);
        }
        let place = cursor.at();
        match cursor.byte()? {
            0 => Ok(types),
            _ => form(place, "a zero byte must end the types"),
        }
    }

    /// A type by its place in the table.
    pub fn at(&self, index: usize) -> &Type {
        &self.all[index]
    }

    /// A type's number, read and looked up.
    pub fn number(&self, cursor: &mut Cursor) -> Result<usize, HeaderError> {
        let place = cursor.at();
        let number = cursor.unsigned()?;
        let found = number.checked_sub(1).and_then(|n| usize::try_from(n).ok()).and_then(|n| self.numbered.get(n));
        match found {
            Some(&index) => Ok(index),
            None => form(place, format!("type {number} of {} so far", self.numbered.len())),
        }
    }

    fn read_one(&mut self, cursor: &mut Cursor, strings: &Strings, minor: u8) -> Result<usize, HeaderError> {
        let place = cursor.at();
        let kind = cursor.byte()?;
        let name = strings.number(cursor)?;
        let scalar = |body| Type { name, body, scalars: 1, open: false, depth: 1 };
        let made = match kind {
            22 | 23 => {
                let count = count(cursor, "literals")?;
                let mut literals = vec![];
                for _ in 0..count {
                    literals.push(strings.number(cursor)?);
                }
                let letters = letters(&literals, strings);
                scalar(Body::Enumeration { literals, letters })
            }
            25 | 26 => scalar(Body::Integer),
            27 => scalar(Body::Real),
            28 | 29 => {
                let mut units = vec![];
                if minor > 0 {
                    for _ in 0..count(cursor, "units")? {
                        units.push((strings.number(cursor)?, cursor.signed()?));
                    }
                }
                scalar(Body::Physical { units })
            }
            31 => {
                let element = self.number(cursor)?;
                let mut indices = vec![];
                for _ in 0..count(cursor, "dimensions")? {
                    indices.push(self.number(cursor)?);
                }
                if indices.is_empty() {
                    return form(place, "an array without dimensions");
                }
                let depth = self.deeper(self.all[element].depth, place)?;
                Type { name, body: Body::Open { element, indices }, scalars: 0, open: true, depth }
            }
            32 => {
                let mut fields = vec![];
                for _ in 0..count(cursor, "elements")? {
                    fields.push(Field { name: strings.number(cursor)?, of: self.number(cursor)? });
                }
                self.record(name, None, fields, place)?
            }
            34 => {
                let base = self.number(cursor)?;
                let root = match self.all[base].body {
                    Body::Scalar { root, .. } => root,
                    _ => base,
                };
                if !self.is_scalar(root) {
                    return form(place, "a scalar subtype of a type that is no scalar");
                }
                let range = range(cursor)?;
                scalar(Body::Scalar { base, root, range })
            }
            35 => {
                let base = self.number(cursor)?;
                self.bound_array(cursor, name, base, place)?
            }
            37 | 39 => {
                let base = self.number(cursor)?;
                let (of, root) = (&self.all[base], self.root(base));
                let fits = match self.all[root].body {
                    Body::Open { .. } => kind == 37,
                    Body::Record { .. } => kind == 39,
                    _ => false,
                };
                if !fits || !of.open {
                    return form(place, "an unbounded subtype of a type that is bounded or of another sort");
                }
                Type { name, body: Body::Renamed { root }, scalars: of.scalars, open: of.open, depth: of.depth }
            }
            38 => {
                let base = self.number(cursor)?;
                self.bound_record(cursor, name, base, place)?
            }
            _ => return form(place, format!("{kind} is no type's kind")),
        };
        Ok(self.push(made))
    }

    fn push(&mut self, made: Type) -> usize {
        self.all.push(made);
        self.all.len() - 1
    }

    fn deeper(&self, depth: u32, place: usize) -> Result<u32, HeaderError> {
        if depth >= DEEPEST {
            return form(place, format!("types nested more than {DEEPEST} deep"));
        }
        Ok(depth + 1)
    }

    /// The open array or the record below subtypes; a type of another sort is its own.
    fn root(&self, index: usize) -> usize {
        match self.all[index].body {
            Body::Array { root, .. } | Body::Renamed { root } => root,
            Body::Record { base: Some(root), .. } => root,
            _ => index,
        }
    }

    fn is_scalar(&self, index: usize) -> bool {
        use Body::*;
        matches!(self.all[index].body, Enumeration { .. } | Integer | Real | Physical { .. } | Scalar { .. })
    }

    /// The bounds of an array type: a range for each dimension, then the element's, where that is open.
    fn bound_array(&mut self, cursor: &mut Cursor, name: u32, base: usize, place: usize) -> Result<Type, HeaderError> {
        let root = self.root(base);
        let (mut element, dimensions) = match &self.all[root].body {
            Body::Open { element, indices } => (*element, indices.len()),
            _ => return form(place, "bounds of an array for a type that is none"),
        };
        let mut ranges = vec![];
        let mut length = 1u64;
        for _ in 0..dimensions {
            let place = cursor.at();
            let range = range(cursor)?;
            match range.length() {
                Some(spanned) => length = length.saturating_mul(spanned),
                None => return form(place, "a range of reals for an array"),
            }
            ranges.push(range);
        }
        if self.all[element].open {
            element = self.bounds(cursor, element, place)?;
        }
        let of = &self.all[element];
        let scalars = length.saturating_mul(of.scalars);
        let depth = self.deeper(of.depth, place)?;
        Ok(Type { name, body: Body::Array { base, root, element, ranges }, scalars, open: false, depth })
    }

    /// The bounds of a record type: those of each open element; none where the record has no open one.
    fn bound_record(&mut self, cursor: &mut Cursor, name: u32, base: usize, place: usize) -> Result<Type, HeaderError> {
        let root = self.root(base);
        let of = &self.all[root];
        let mut fields = match &of.body {
            Body::Record { fields, all, .. } => all.as_ref().unwrap_or(fields).clone(),
            _ => return form(place, "bounds of a record for a type that is none"),
        };
        for field in &mut fields {
            if self.all[field.of].open {
                field.of = self.bounds(cursor, field.of, place)?;
            }
        }
        self.record(name, Some(root), fields, place)
    }

    /// The bounds of an element's type, as a type of its own. Each call is one nest deeper in types that were read: no
    /// deeper than `DEEPEST`.
    fn bounds(&mut self, cursor: &mut Cursor, open: usize, place: usize) -> Result<usize, HeaderError> {
        let bound = match self.all[self.root(open)].body {
            Body::Record { .. } => self.bound_record(cursor, 0, open, place)?,
            _ => self.bound_array(cursor, 0, open, place)?,
        };
        Ok(self.push(bound))
    }

    fn record(&mut self, name: u32, base: Option<usize>, all: Vec<Field>, place: usize) -> Result<Type, HeaderError> {
        self.elements_left = match self.elements_left.checked_sub(all.len()) {
            Some(left) => left,
            None => return form(place, "more elements of records than the file's size can account for"),
        };
        let depth = all.iter().map(|f| self.all[f.of].depth).max().unwrap_or(0);
        let depth = self.deeper(depth, place)?;
        let open = all.iter().any(|f| self.all[f.of].open);
        let fields: Vec<Field> = all.iter().filter(|f| self.all[f.of].scalars > 0).cloned().collect();
        let mut ends = vec![];
        let mut scalars = 0u64;
        for field in &fields {
            scalars = scalars.saturating_add(self.all[field.of].scalars);
            ends.push(scalars);
        }
        let scalars = if open { 0 } else { scalars };
        Ok(Type { name, body: Body::Record { base, fields, ends, all: open.then(|| all) }, scalars, open, depth })
    }

    /// The scalar type below subtypes.
    pub fn scalar_root(&self, index: usize) -> usize {
        match self.all[index].body {
            Body::Scalar { root, .. } => root,
            _ => index,
        }
    }

    /// The letters of a scalar's values.
    pub fn letters(&self, index: usize) -> Letters {
        match self.all[self.scalar_root(index)].body {
            Body::Enumeration { letters, .. } => letters,
            _ => Letters::Other,
        }
    }

    /// The letters of the elements of a one-dimensional array of `std_ulogic` or `bit`: what can be a vector.
    pub fn vector_letters(&self, index: usize) -> Option<Letters> {
        match &self.all[index].body {
            Body::Array { element, ranges, .. } if ranges.len() == 1 && self.is_scalar(*element) => {
                Some(self.letters(*element)).filter(|&letters| letters != Letters::Other)
            }
            _ => None,
        }
    }

    /// Calls `leaf` for each scalar and each array of letters in a type, from left to right, with its type and how many
    /// scalars stand before it. What has no scalars is passed over. No deeper than `DEEPEST`.
    pub fn leaves<E>(
        &self,
        index: usize,
        before: u64,
        leaf: &mut impl FnMut(usize, u64) -> Result<(), E>,
    ) -> Result<(), E> {
        match &self.all[index].body {
            Body::Record { fields, ends, .. } => {
                for (field, end) in fields.iter().zip(ends) {
                    self.leaves(field.of, before + end - self.all[field.of].scalars, leaf)?;
                }
                Ok(())
            }
            Body::Array { element, .. } if self.vector_letters(index).is_none() => {
                let each = self.all[*element].scalars;
                let mut at = 0;
                while at < self.all[index].scalars {
                    self.leaves(*element, before + at, leaf)?;
                    at += each;
                }
                Ok(())
            }
            _ => leaf(index, before),
        }
    }

    /// The way from a type down to the scalar, or the array of letters, of so many scalars that begins at one of them;
    /// and its type.
    pub fn descend(&self, mut index: usize, mut at: u64, scalars: u64) -> (Vec<Step<'_>>, usize) {
        let mut steps = vec![];
        loop {
            match &self.all[index].body {
                Body::Record { fields, ends, .. } => {
                    let place = ends.partition_point(|&end| end <= at);
                    let field = match fields.get(place) {
                        Some(field) => field,
                        None => return (steps, index),
                    };
                    at -= ends[place] - self.all[field.of].scalars;
                    steps.push(Step::Field(field.name));
                    index = field.of;
                }
                Body::Array { root, element, ranges, .. } => {
                    let vector = self.vector_letters(index).is_some() && scalars == self.all[index].scalars;
                    let each = self.all[*element].scalars;
                    if vector || each == 0 {
                        return (steps, index);
                    }
                    let indices = match &self.all[*root].body {
                        Body::Open { indices, .. } => indices.as_slice(),
                        _ => &[],
                    };
                    steps.push(Step::Index(ranges, indices, at / each));
                    at %= each;
                    index = *element;
                }
                _ => return (steps, index),
            }
        }
    }

    /// `(3)` or `(1,red)`: the element at a position of an array, row by row.
    pub fn index_text(&self, strings: &Strings, ranges: &[Range], indices: &[usize], mut position: u64) -> String {
        let mut texts = vec![];
        for (dimension, range) in ranges.iter().enumerate().rev() {
            let length = range.length().unwrap_or(1).max(1);
            let index = range.index(position % length);
            texts.push(match indices.get(dimension) {
                Some(&of) => self.scalar_text(strings, of, index),
                None => index.to_string(),
            });
            position /= length;
        }
        texts.reverse();
        format!("({})", texts.join(","))
    }

    /// A value of a scalar type that is no real, as VHDL writes it.
    pub fn scalar_text(&self, strings: &Strings, index: usize, value: i64) -> String {
        match &self.all[self.scalar_root(index)].body {
            Body::Enumeration { literals, .. } => match usize::try_from(value).ok().and_then(|v| literals.get(v)) {
                Some(&literal) => strings.text(literal),
                None => value.to_string(),
            },
            _ => value.to_string(),
        }
    }

    /// The type's name: its own, or what an anonymous one is made of.
    pub fn name(&self, strings: &Strings, index: usize) -> String {
        let of = &self.all[index];
        if of.name != 0 {
            return strings.text(of.name);
        }
        match &of.body {
            // below an anonymous type the name is taken from its root, so that no chain of them is long
            Body::Scalar { base, root, range } => {
                let base = if self.all[*base].name == 0 { root } else { base };
                format!("{} range {}", strings.text(self.all[*base].name), self.range_text(strings, *root, range))
            }
            Body::Array { base, root, ranges, .. } => {
                let indices = match &self.all[*root].body {
                    Body::Open { indices, .. } => indices.as_slice(),
                    _ => &[],
                };
                let texts: Vec<String> =
                    ranges.iter().zip(indices).map(|(range, &of)| self.range_text(strings, of, range)).collect();
                let base = if self.all[*base].name == 0 { *root } else { *base };
                format!("{}({})", strings.text(self.all[base].name), texts.join(", "))
            }
            Body::Record { base: Some(base), .. } | Body::Renamed { root: base } => strings.text(self.all[*base].name),
            _ => "(anonymous)".into(),
        }
    }

    fn range_text(&self, strings: &Strings, of: usize, range: &Range) -> String {
        let word = |down| if down { "downto" } else { "to" };
        match *range {
            Range::Whole { down, left, right } => {
                let text = |value| self.scalar_text(strings, of, value);
                format!("{} {} {}", text(left), word(down), text(right))
            }
            Range::Real { down, left, right } => format!("{:?} {} {:?}", left, word(down), right),
        }
    }

    /// A value of a type, as it stands behind a for-generate's name: one byte of an enumeration, eight of a real, else
    /// a signed number.
    pub fn value_text(&self, cursor: &mut Cursor, strings: &Strings, index: usize) -> Result<String, HeaderError> {
        let place = cursor.at();
        let root = self.scalar_root(index);
        match self.all[root].body {
            Body::Enumeration { .. } => Ok(self.scalar_text(strings, root, i64::from(cursor.byte()?))),
            Body::Real => Ok(format!("{:?}", cursor.f64()?)),
            Body::Integer | Body::Physical { .. } => Ok(cursor.signed()?.to_string()),
            _ => form(place, "a generate's index of a type that is no scalar"),
        }
    }
}

/// A count of things that take a byte each at least.
fn count(cursor: &mut Cursor, what: &str) -> Result<u64, HeaderError> {
    let place = cursor.at();
    let count = cursor.unsigned()?;
    if count > cursor.left() as u64 {
        return form(place, format!("{count} {what} in the {} bytes that are left", cursor.left()));
    }
    Ok(count)
}

fn range(cursor: &mut Cursor) -> Result<Range, HeaderError> {
    let place = cursor.at();
    let first = cursor.byte()?;
    let down = first & 0x80 != 0;
    match first & 0x7f {
        22 | 23 => Ok(Range::Whole { down, left: i64::from(cursor.byte()?), right: i64::from(cursor.byte()?) }),
        25 | 26 | 28 | 29 => Ok(Range::Whole { down, left: cursor.signed()?, right: cursor.signed()? }),
        27 => Ok(Range::Real { down, left: cursor.f64()?, right: cursor.f64()? }),
        kind => form(place, format!("{kind} is no kind of a range")),
    }
}

fn letters(literals: &[u32], strings: &Strings) -> Letters {
    let are = |wanted: &str| {
        literals.len() == wanted.len()
            && literals
                .iter()
                .zip(wanted.chars())
                .all(|(&number, letter)| strings.text(number) == format!("'{letter}'"))
    };
    if are("UX01ZWLH-") {
        Letters::Nine
    } else if are("01") {
        Letters::Two
    } else {
        Letters::Other
    }
}
