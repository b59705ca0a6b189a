//! The hierarchy: scopes, and the signals declared in them with their ids.
use super::bytes::{form, Cursor, HeaderError};
use super::gather::{Gatherer, Leaf};
use super::strings::Strings;
use super::types::Types;

/// The deepest nest of scopes that is taken.
const DEEPEST: u32 = 1_024;

/// What a scope is.
#[derive(Clone, Copy, Debug, PartialEq, Eq)]
pub enum ScopeKind {
    /// A block statement.
    Block,
    /// An if-generate.
    IfGenerate,
    /// One turn of a for-generate.
    ForGenerate,
    /// A component or an entity.
    Instance,
    /// A package.
    Package,
    /// What the file calls a generic.
    Generic,
}

/// How a signal is declared.
#[derive(Clone, Copy, Debug, PartialEq, Eq)]
pub enum Direction {
    /// No port.
    Signal,
    /// A port of mode in.
    In,
    /// A port of mode out.
    Out,
    /// A port of mode inout.
    Inout,
    /// A port of mode buffer.
    Buffer,
    /// A port of mode linkage.
    Linkage,
}

impl Direction {
    /// As VHDL writes it.
    pub fn word(self) -> &'static str {
        use Direction::*;
        match self {
            Signal => "signal",
            In => "in",
            Out => "out",
            Inout => "inout",
            Buffer => "buffer",
            Linkage => "linkage",
        }
    }
}

/// A scope; number 0 is the file itself.
pub(super) struct ScopeRecord {
    pub parent: u32,
    pub name: u32,
    pub kind: ScopeKind,
    /// The index of a for-generate.
    pub index: Option<String>,
    depth: u32,
    /// Ids first mentioned in it, those of scopes inside it not counted.
    pub ids: u64,
}

/// A signal as it is declared: all its scalars.
pub(super) struct Declaration {
    pub scope: u32,
    pub name: u32,
    pub of: usize,
    pub direction: Direction,
    /// Its first leaf; they end where the next declaration's begin.
    pub leaves: u32,
}

/// What the part holds.
pub(super) struct Hierarchy {
    pub scopes: Vec<ScopeRecord>,
    pub declarations: Vec<Declaration>,
    pub gatherer: Gatherer,
}

impl Hierarchy {
    pub fn read(cursor: &mut Cursor, strings: &Strings, types: &Types) -> Result<Hierarchy, HeaderError> {
        cursor.begin("HIE", "the hierarchy")?;
        // counts of the whole design, of which a wave filter may have left something out
        let _counts = (cursor.u32()?, cursor.u32()?, cursor.u32()?);
        let file = ScopeRecord { parent: 0, name: 0, kind: ScopeKind::Block, index: None, depth: 0, ids: 0 };
        let mut hierarchy = Hierarchy { scopes: vec![file], declarations: vec![], gatherer: Gatherer::default() };
        let mut scope = 0;
        loop {
            let place = cursor.at();
            let kind = cursor.byte()?;
            match kind {
                0 if scope == 0 => return Ok(hierarchy),
                0 => return form(place, "the hierarchy ends inside a scope"),
                15 if scope == 0 => return form(place, "a scope's end without a scope"),
                15 => scope = hierarchy.scopes[scope as usize].parent,
                13 => {
                    strings.number(cursor)?;
                }
                3 | 4 | 5 | 6 | 7 | 14 => {
                    let name = strings.number(cursor)?;
                    let (kind, index) = match kind {
                        3 => (ScopeKind::Block, None),
                        4 => (ScopeKind::IfGenerate, None),
                        5 => {
                            let of = types.number(cursor)?;
                            (ScopeKind::ForGenerate, Some(types.value_text(cursor, strings, of)?))
                        }
                        6 => (ScopeKind::Instance, None),
                        7 => (ScopeKind::Package, None),
                        _ => (ScopeKind::Generic, None),
                    };
                    let depth = hierarchy.scopes[scope as usize].depth + 1;
                    if depth > DEEPEST {
                        return form(place, format!("scopes nested more than {DEEPEST} deep"));
                    }
                    hierarchy.scopes.push(ScopeRecord { parent: scope, name, kind, index, depth, ids: 0 });
                    scope = hierarchy.scopes.len() as u32 - 1;
                }
                16..=21 => {
                    use Direction::*;
                    let direction = [Signal, In, Out, Inout, Buffer, Linkage][usize::from(kind - 16)];
                    hierarchy.declare(cursor, strings, types, scope, direction)?;
                }
                _ => return form(place, format!("{kind} is no kind of a hierarchy's entry")),
            }
        }
    }

    fn declare(
        &mut self,
        cursor: &mut Cursor,
        strings: &Strings,
        types: &Types,
        scope: u32,
        direction: Direction,
    ) -> Result<(), HeaderError> {
        let name = strings.number(cursor)?;
        let place = cursor.at();
        let of = types.number(cursor)?;
        let what = types.at(of);
        if what.open {
            return form(place, format!("a signal of {}, which has no bounds", types.name(strings, of)));
        }
        if what.scalars > cursor.left() as u64 {
            return form(
                place,
                format!("a signal of {} scalars in the {} bytes that are left", what.scalars, cursor.left()),
            );
        }
        let declaration = self.declarations.len() as u32;
        let leaves = self.gatherer.leaves.len() as u32;
        self.declarations.push(Declaration { scope, name, of, direction, leaves });
        let before = self.gatherer.ids();
        if what.scalars == 0 {
            self.gatherer.leaves.push(Leaf::empty(declaration));
            return Ok(());
        }
        types.leaves(of, 0, &mut |leaf, at| self.gatherer.leaf(cursor, types, leaf, declaration, at as u32))?;
        self.scopes[scope as usize].ids += (self.gatherer.ids() - before) as u64;
        Ok(())
    }
}
