//! Small GHW files, made by hand: strings, types, a hierarchy, sections.
#![allow(dead_code)]

/// An unsigned LEB128 number.
pub fn unsigned(mut number: u64) -> Vec<u8> {
    let mut out = vec![];
    while number > 127 {
        out.push(number as u8 | 0x80);
        number >>= 7;
    }
    out.push(number as u8);
    out
}

/// A signed LEB128 number.
pub fn signed(mut number: i64) -> Vec<u8> {
    let mut out = vec![];
    while !(-64..64).contains(&number) {
        out.push(number as u8 | 0x80);
        number >>= 7;
    }
    out.push(number as u8 & 0x7f);
    out
}

/// A file in the making.
#[derive(Clone, Default)]
pub struct File {
    pub big_endian: bool,
    strings: Vec<String>,
    types: Vec<Vec<u8>>,
    hierarchy: Vec<u8>,
    ids: u64,
    pub sections: Vec<u8>,
}

impl File {
    /// With `bit` as type 1, `std_ulogic` as 2 and `natural` as 3.
    pub fn new() -> File {
        let mut file = File::default();
        file.enumeration("bit", &["'0'", "'1'"]);
        file.enumeration("std_ulogic", &["'U'", "'X'", "'0'", "'1'", "'Z'", "'W'", "'L'", "'H'", "'-'"]);
        file.kind(25, "natural", &[]);
        file
    }

    /// A string's number.
    pub fn string(&mut self, text: &str) -> u64 {
        let known = self.strings.iter().position(|known| known == text);
        let at = known.unwrap_or_else(|| {
            self.strings.push(text.to_string());
            self.strings.len() - 1
        });
        at as u64 + 1
    }

    fn name(&mut self, text: &str) -> Vec<u8> {
        if text.is_empty() {
            return vec![0];
        }
        unsigned(self.string(text))
    }

    /// A type of any kind and body; its number.
    pub fn kind(&mut self, kind: u8, name: &str, body: &[u8]) -> u64 {
        let name = self.name(name);
        self.types.push([&[kind][..], &name, body].concat());
        self.types.len() as u64
    }

    pub fn enumeration(&mut self, name: &str, literals: &[&str]) -> u64 {
        let mut body = unsigned(literals.len() as u64);
        for literal in literals {
            body.extend(self.name(literal));
        }
        self.kind(23, name, &body)
    }

    /// An open array with one dimension.
    pub fn array(&mut self, name: &str, element: u64) -> u64 {
        self.kind(31, name, &[unsigned(element), vec![1], unsigned(3)].concat())
    }

    /// An array subtype, `high downto 0` and what bounds its element needs.
    pub fn bound(&mut self, name: &str, base: u64, high: i64, more: &[u8]) -> u64 {
        self.kind(35, name, &[unsigned(base), downto(high), more.to_vec()].concat())
    }

    pub fn record(&mut self, name: &str, fields: &[(&str, u64)]) -> u64 {
        let mut body = unsigned(fields.len() as u64);
        for (field, of) in fields {
            body.extend(self.name(field));
            body.extend(unsigned(*of));
        }
        self.kind(32, name, &body)
    }

    /// Opens an instance.
    pub fn instance(&mut self, name: &str) {
        let name = self.name(name);
        self.entry(6, &name);
    }

    /// Ends a scope.
    pub fn end(&mut self) {
        self.entry(15, &[]);
    }

    pub fn entry(&mut self, kind: u8, body: &[u8]) {
        self.hierarchy.push(kind);
        self.hierarchy.extend(body);
    }

    /// A signal with these ids.
    pub fn signal(&mut self, name: &str, of: u64, ids: impl IntoIterator<Item = u64>) {
        let mut body = [self.name(name), unsigned(of)].concat();
        for id in ids {
            self.ids = self.ids.max(id);
            body.extend(unsigned(id));
        }
        self.entry(16, &body);
    }

    /// A signal with so many new ids.
    pub fn fresh(&mut self, name: &str, of: u64, width: u64) {
        let from = self.ids + 1;
        self.signal(name, of, from..from + width);
    }

    fn number(&self, number: usize) -> [u8; 4] {
        let number = number as u32;
        if self.big_endian {
            number.to_be_bytes()
        } else {
            number.to_le_bytes()
        }
    }

    /// The whole file.
    pub fn bytes(&self) -> Vec<u8> {
        let order = if self.big_endian { 2 } else { 1 };
        let mut out = b"GHDLwave\n".to_vec();
        out.extend([16, 0, 1, order, 4, 1, 0]);
        out.extend(b"STR\0\0\0\0\0");
        out.extend(self.number(self.strings.len()));
        out.extend(self.number(0));
        for string in &self.strings {
            out.extend(string.as_bytes());
            out.push(0);
        }
        out.extend(b"EOS\0TYP\0\0\0\0\0");
        out.extend(self.number(self.types.len()));
        out.extend(self.types.concat());
        out.extend(b"\0WKT\0\0\0\0\0\0HIE\0\0\0\0\0");
        out.extend([0; 12]);
        out.extend(&self.hierarchy);
        out.extend(b"\0EOH\0");
        out.extend(&self.sections);
        out
    }
}

/// The range `high downto 0`.
pub fn downto(high: i64) -> Vec<u8> {
    [vec![25 | 0x80], signed(high), vec![0]].concat()
}
