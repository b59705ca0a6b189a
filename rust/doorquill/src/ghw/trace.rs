//! A file that was opened: its signals and scopes by name.
use super::gather::{Leaf, Role};
use super::hierarchy::{Declaration, Direction, Hierarchy, ScopeKind};
use super::strings::Strings;
use super::types::{Body, Letters, Step, Types};
use crate::{Kind, Tables};

/// A GHW file whose header, strings, types and hierarchy were read.
pub struct Trace<'a> {
    file: &'a [u8],
    sections_at: usize,
    big_endian: bool,
    strings: Strings<'a>,
    types: Types,
    hierarchy: Hierarchy,
}

/// A signal as the tables know them: a scalar or an array of letters (`std_ulogic` or `bit`) in a signal that is
/// declared. Records and other arrays are their elements, each by itself.
#[derive(Clone, Copy)]
pub struct Signal<'t> {
    trace: &'t Trace<'t>,
    index: u32,
}

/// How a signal stands to the others.
#[derive(Clone, Copy, Debug, PartialEq, Eq)]
pub enum Relation<'t> {
    /// It has events of its own.
    Own,
    /// The same bits under another name, as a port and the signal that it is joined to; the events are the same.
    Alias(Signal<'t>),
    /// Some bits of a vector, and no events of its own.
    Slice(Signal<'t>),
    /// One bit of a vector, and no events of its own.
    Bit(Signal<'t>),
    /// An array that no vector holds, since its bits are not neighbours; its elements are signals by themselves.
    Scattered,
    /// No bits at all.
    Empty,
}

/// What a signal's values are, besides bits.
#[derive(Clone, Debug, PartialEq, Eq)]
pub enum Values {
    /// `std_ulogic` or arrays of it.
    NineState,
    /// `bit` or arrays of it.
    TwoState,
    /// Numbers that stand for literals, from 0 on.
    Enumeration,
    /// Whole numbers.
    Integer,
    /// Whole numbers of units.
    Physical,
    /// Reals.
    Real,
}

/// A scope: a design unit, block, package or turn of a generate.
#[derive(Clone, Copy)]
pub struct Scope<'t> {
    trace: &'t Trace<'t>,
    index: u32,
}

impl<'a> Trace<'a> {
    pub(super) fn new(
        file: &'a [u8],
        sections_at: usize,
        big_endian: bool,
        strings: Strings<'a>,
        types: Types,
        hierarchy: Hierarchy,
    ) -> Trace<'a> {
        Trace { file, sections_at, big_endian, strings, types, hierarchy }
    }

    /// The tables that the sections are read by.
    ///
    /// They are good by document 01's checks as long as they are within its limits ([`ids`](Trace::ids) and
    /// [`Tables::vectors`]).
    pub fn tables(&self) -> &Tables {
        &self.hierarchy.gatherer.tables
    }

    /// How many ids the hierarchy has: the scalars that the sections give values of.
    pub fn ids(&self) -> usize {
        self.hierarchy.gatherer.ids()
    }

    /// Whether fixed-size integers are big-endian.
    pub fn big_endian(&self) -> bool {
        self.big_endian
    }

    /// Where the sections begin, counted from the file's first byte.
    pub fn sections_at(&self) -> usize {
        self.sections_at
    }

    /// The section bytes: all behind the hierarchy.
    pub fn sections(&self) -> &'a [u8] {
        &self.file[self.sections_at..]
    }

    /// The signals, in the order of their declarations.
    pub fn signals(&self) -> impl Iterator<Item = Signal<'_>> {
        (0..self.hierarchy.gatherer.leaves.len() as u32).map(move |index| Signal { trace: self, index })
    }

    /// The scopes, each behind the one that it is in.
    pub fn scopes(&self) -> impl Iterator<Item = Scope<'_>> {
        (1..self.hierarchy.scopes.len() as u32).map(move |index| Scope { trace: self, index })
    }

    /// The signal that an id belongs to; ids count from 1.
    pub fn signal_of(&self, id: u32) -> Option<Signal<'_>> {
        self.hierarchy.gatherer.owner(id).map(|index| Signal { trace: self, index })
    }

    /// The signal of this path.
    pub fn find(&self, path: &str) -> Option<Signal<'_>> {
        let whole = |&(signal, rest): &(Signal<'_>, &str)| signal.suffix() == rest;
        self.named(path).into_iter().find(whole).map(|(signal, _)| signal)
    }

    /// The scope of this path.
    pub fn find_scope(&self, path: &str) -> Option<Scope<'_>> {
        let mut whole = path.to_string();
        whole.push('.');
        let rests = self.rests(&whole);
        self.scopes().find(|scope| rests[scope.index as usize] == Some(""))
    }

    /// The signals that a declared record or array of this path is made of; none where it is no such thing.
    pub fn elements(&self, path: &str) -> Vec<Signal<'_>> {
        let inside = |signal: Signal, rest: &str| {
            let suffix = signal.suffix();
            suffix.strip_prefix(rest).map_or(false, |more| more.starts_with(|c| c == '.' || c == '('))
        };
        self.named(path).into_iter().filter(|&(signal, rest)| inside(signal, rest)).map(|(signal, _)| signal).collect()
    }

    /// The signals whose declared name a path begins with, and what is left of the path behind it.
    fn named<'p>(&self, path: &'p str) -> Vec<(Signal<'_>, &'p str)> {
        let rests = self.rests(path);
        let mut found = vec![];
        for (number, declaration) in self.hierarchy.declarations.iter().enumerate() {
            let name = rests[declaration.scope as usize].map(|rest| (rest, self.strings.text(declaration.name)));
            if let Some(rest) = name.and_then(|(rest, name)| rest.strip_prefix(&*name)) {
                found.extend(self.leaves(number).map(|signal| (signal, rest)));
            }
        }
        found
    }

    fn leaves(&self, declaration: usize) -> impl Iterator<Item = Signal<'_>> {
        let declarations = &self.hierarchy.declarations;
        let end = declarations.get(declaration + 1).map_or(self.hierarchy.gatherer.leaves.len() as u32, |d| d.leaves);
        (declarations[declaration].leaves..end).map(move |index| Signal { trace: self, index })
    }

    /// For each scope what is left of a path behind the scope's own path and a dot, where the path begins so.
    fn rests<'p>(&self, path: &'p str) -> Vec<Option<&'p str>> {
        let mut rests = vec![Some(path)];
        for scope in self.scopes() {
            let rest = rests[scope.record().parent as usize]
                .and_then(|rest: &str| rest.strip_prefix(&*scope.name()))
                .and_then(|rest| rest.strip_prefix('.'));
            rests.push(rest);
        }
        rests
    }

    fn scope_path(&self, mut index: u32) -> String {
        let mut names = vec![];
        while index != 0 {
            names.push(Scope { trace: self, index }.name());
            index = self.hierarchy.scopes[index as usize].parent;
        }
        names.reverse();
        names.join(".")
    }
}

impl<'t> Scope<'t> {
    fn record(&self) -> &'t super::hierarchy::ScopeRecord {
        &self.trace.hierarchy.scopes[self.index as usize]
    }

    /// Its own name: `lane(3)` of a turn of a generate.
    pub fn name(&self) -> String {
        let name = self.trace.strings.text(self.record().name);
        match &self.record().index {
            Some(index) => format!("{name}({index})"),
            None => name,
        }
    }

    /// Its name with those of the scopes that it is in.
    pub fn path(&self) -> String {
        self.trace.scope_path(self.index)
    }

    /// What it is.
    pub fn kind(&self) -> ScopeKind {
        self.record().kind
    }

    /// The ids that are first mentioned in it, those of scopes inside it not counted.
    pub fn ids(&self) -> u64 {
        self.record().ids
    }
}

impl PartialEq for Signal<'_> {
    fn eq(&self, other: &Self) -> bool {
        self.index == other.index && std::ptr::eq(self.trace.file, other.trace.file)
    }
}

impl Eq for Signal<'_> {}

impl std::fmt::Debug for Signal<'_> {
    fn fmt(&self, f: &mut std::fmt::Formatter<'_>) -> std::fmt::Result {
        write!(f, "Signal({})", self.path())
    }
}

impl<'t> Signal<'t> {
    fn leaf(&self) -> Leaf {
        self.trace.hierarchy.gatherer.leaves[self.index as usize]
    }

    fn declaration(&self) -> &'t Declaration {
        &self.trace.hierarchy.declarations[self.leaf().declaration as usize]
    }

    /// The way down from the declared signal, and the type there.
    fn way(&self) -> (Vec<Step<'t>>, usize) {
        let leaf = self.leaf();
        self.trace.types.descend(self.declaration().of, u64::from(leaf.at), u64::from(leaf.width))
    }

    /// What follows the declared name: `.field` or `(3)`.
    fn suffix(&self) -> String {
        let Trace { strings, types, .. } = self.trace;
        let text = |step| match step {
            Step::Field(name) => format!(".{}", strings.text(name)),
            Step::Index(ranges, indices, position) => types.index_text(strings, ranges, indices, position),
        };
        self.way().0.into_iter().map(text).collect()
    }

    /// The type of its scalars, below subtypes.
    fn scalar(&self) -> &'t Body {
        let types = &self.trace.types;
        let of = match types.at(self.way().1).body {
            Body::Array { element, .. } => element,
            _ => self.way().1,
        };
        &types.at(types.scalar_root(of)).body
    }

    /// Its place among the signals, from 0.
    pub fn number(&self) -> usize {
        self.index as usize
    }

    /// Its own name: as declared, with the elements of records and arrays.
    pub fn name(&self) -> String {
        self.trace.strings.text(self.declaration().name) + &self.suffix()
    }

    /// Its name with those of the scopes that it is in: `rbc.lane(3).s_frag`.
    pub fn path(&self) -> String {
        match self.declaration().scope {
            0 => self.name(),
            scope => self.trace.scope_path(scope) + "." + &self.name(),
        }
    }

    /// The name of its type.
    pub fn type_name(&self) -> String {
        self.trace.types.name(&self.trace.strings, self.way().1)
    }

    /// How it is declared.
    pub fn direction(&self) -> Direction {
        self.declaration().direction
    }

    /// Whether it is an array of bits, be it of one bit.
    pub fn is_vector(&self) -> bool {
        matches!(self.trace.types.at(self.way().1).body, Body::Array { .. })
    }

    /// Whether its values are letters, of `std_ulogic` or of `bit`: then its width counts bits.
    pub fn has_bits(&self) -> bool {
        matches!(self.values(), Values::NineState | Values::TwoState)
    }

    /// Its scalars: how many letters it has, and 1 where it has other values.
    pub fn width(&self) -> u32 {
        self.leaf().width
    }

    /// The reference that its events have; none of a signal that has no events of its own, so that nobody counts by one
    /// and finds nothing.
    pub fn reference(&self) -> Option<u32> {
        let leaf = self.leaf();
        matches!(leaf.role, Role::Own | Role::Alias { .. }).then(|| leaf.reference)
    }

    /// The kind that its ids have in the tables; none of a signal that is scattered or empty.
    pub fn kind(&self) -> Option<Kind> {
        let first = self.leaf().first;
        let owner = self.trace.signal_of(first)?;
        match self.trace.hierarchy.gatherer.lone_kind(first)? {
            Kind::NineState if owner.is_vector() => Some(Kind::NineStateVec),
            Kind::TwoState if owner.is_vector() => Some(Kind::TwoStateVec),
            kind => Some(kind),
        }
    }

    /// Its ids, from the leftmost bit to the rightmost.
    pub fn ids(&self) -> Vec<u32> {
        let leaf = self.leaf();
        let leaves = &self.trace.hierarchy.gatherer.leaves;
        match leaf.role {
            Role::Scattered => {
                leaves.iter().skip(self.index as usize + 1).take(leaf.width as usize).map(|l| l.first).collect()
            }
            _ => (leaf.first..).take(leaf.width as usize).collect(),
        }
    }

    /// How it stands to the others.
    pub fn relation(&self) -> Relation<'t> {
        let signal = |index| Signal { trace: self.trace, index };
        match self.leaf().role {
            Role::Own => Relation::Own,
            Role::Alias { of } => Relation::Alias(signal(of)),
            Role::Part { of } if self.leaf().width == 1 => Relation::Bit(signal(of)),
            Role::Part { of } => Relation::Slice(signal(of)),
            Role::Scattered => Relation::Scattered,
            Role::Empty => Relation::Empty,
        }
    }

    /// The bits of the vector that a slice or a bit is of, the highest and the lowest: bit 0 is the rightmost.
    pub fn bits(&self) -> Option<(u32, u32)> {
        match self.leaf().role {
            Role::Part { of } => {
                let owner = self.trace.hierarchy.gatherer.leaves[of as usize];
                let highest = owner.first + (owner.width - 1) - self.leaf().first;
                Some((highest, highest + 1 - self.leaf().width))
            }
            _ => None,
        }
    }

    /// What its values are.
    pub fn values(&self) -> Values {
        match self.scalar() {
            Body::Enumeration { letters: Letters::Nine, .. } => Values::NineState,
            Body::Enumeration { letters: Letters::Two, .. } => Values::TwoState,
            Body::Enumeration { .. } => Values::Enumeration,
            Body::Real => Values::Real,
            Body::Physical { .. } => Values::Physical,
            _ => Values::Integer,
        }
    }

    /// The literals of an enumeration; of other types none.
    pub fn literals(&self) -> Vec<String> {
        match self.scalar() {
            Body::Enumeration { literals, .. } => literals.iter().map(|&name| self.trace.strings.text(name)).collect(),
            _ => vec![],
        }
    }

    /// The units of a physical type, and what each counts for; of other types none.
    pub fn units(&self) -> Vec<(String, i64)> {
        match self.scalar() {
            Body::Physical { units } => {
                units.iter().map(|&(name, value)| (self.trace.strings.text(name), value)).collect()
            }
            _ => vec![],
        }
    }
}
