//! From ids to tables: which leaf is a signal of its own, and which shows another's.
use super::bytes::{form, Cursor, HeaderError};
use super::types::{Body, Letters, Types};
use crate::{Kind, States, Tables};
use std::collections::HashMap;

/// How a leaf stands to the tables.
#[derive(Clone, Copy, Debug, PartialEq, Eq)]
pub(super) enum Role {
    /// A signal or a vector of its own.
    Own,
    /// The same ids as an earlier leaf.
    Alias { of: u32 },
    /// Some ids of an earlier vector.
    Part { of: u32 },
    /// An array that no vector holds; its elements are the leaves right behind it.
    Scattered,
    /// No ids at all.
    Empty,
}

/// A scalar or an array of letters in a declared signal.
#[derive(Clone, Copy, Debug)]
pub(super) struct Leaf {
    pub declaration: u32,
    /// How many scalars of the declared signal stand before it.
    pub at: u32,
    pub width: u32,
    /// Its lowest id; the others follow. 0 where it is scattered or empty.
    pub first: u32,
    /// 0 where it is scattered or empty.
    pub reference: u32,
    pub role: Role,
}

impl Leaf {
    pub fn empty(declaration: u32) -> Leaf {
        Leaf { declaration, at: 0, width: 0, first: 0, reference: 0, role: Role::Empty }
    }
}

/// Leaves and tables, as far as the hierarchy has been read.
#[derive(Default)]
pub(super) struct Gatherer {
    pub leaves: Vec<Leaf>,
    pub tables: Tables,
    /// Of each id, from 1 on: the leaf that it belongs to, and what a signal outside vectors with it would be.
    owners: Vec<(u32, Kind)>,
    /// The references of parts, by first id and width. No event has one; they are counted because the published crate
    /// is thought to count them, so that later signals have the same reference here and there. That was inferred, not
    /// compared: its hierarchy reader was not at hand.
    parts: HashMap<(u32, u32), u32>,
    references: u32,
}

impl Gatherer {
    /// The highest id so far.
    pub fn ids(&self) -> usize {
        self.owners.len()
    }

    /// The leaf that an id belongs to.
    pub fn owner(&self, id: u32) -> Option<u32> {
        self.owners.get((id as usize).checked_sub(1)?).map(|&(leaf, _)| leaf)
    }

    /// What a signal outside vectors with this id would be.
    pub fn lone_kind(&self, id: u32) -> Option<Kind> {
        self.owners.get((id as usize).checked_sub(1)?).map(|&(_, kind)| kind)
    }

    /// Reads the ids of one leaf: new ones, which must come in order, and known ones, which must be of the leaf's kind.
    pub fn leaf(
        &mut self,
        cursor: &mut Cursor,
        types: &Types,
        of: usize,
        declaration: u32,
        at: u32,
    ) -> Result<(), HeaderError> {
        let kind = kind(types, of);
        let before = self.ids() as u64;
        let mut highest = before;
        let mut ids = vec![];
        for _ in 0..types.at(of).scalars {
            let place = cursor.at();
            let id = cursor.unsigned()?;
            if id == 0 || id > highest + 1 {
                return form(place, format!("id {id} where the highest so far is {highest}"));
            }
            if id <= before && self.owners[id as usize - 1].1 != kind {
                return form(place, format!("id {id} again, for a signal of another kind"));
            }
            highest = highest.max(id);
            ids.push(id as u32);
        }
        let rising = ids.windows(2).all(|pair| pair[1] == pair[0] + 1);
        let whole = rising && (u64::from(ids[0]) > before || highest == before);
        let vector = types.vector_letters(of).is_some();
        if !(whole && self.add(declaration, at, ids[0], ids.len() as u32, kind, vector)) {
            let width = ids.len() as u32;
            self.leaves.push(Leaf { declaration, at, width, first: 0, reference: 0, role: Role::Scattered });
            for (place, &id) in ids.iter().enumerate() {
                self.add(declaration, at + place as u32, id, 1, kind, false);
            }
        }
        Ok(())
    }

    /// Adds a leaf whose ids rise by one and are all new or all known; false, and nothing added, where known ids belong
    /// to more than one leaf.
    fn add(&mut self, declaration: u32, at: u32, first: u32, width: u32, kind: Kind, vector: bool) -> bool {
        let (role, reference) = match self.owner(first) {
            None => {
                self.references += 1;
                let leaf = self.leaves.len() as u32;
                match kind {
                    Kind::NineState if vector => drop(self.tables.vector(States::Nine, width, self.references)),
                    Kind::TwoState if vector => drop(self.tables.vector(States::Two, width, self.references)),
                    _ => drop(self.tables.signal(kind, self.references)),
                }
                self.owners.extend((0..width).map(|_| (leaf, kind)));
                (Role::Own, self.references)
            }
            Some(of) => {
                let owner = self.leaves[of as usize];
                if (owner.first, owner.width) == (first, width) {
                    (Role::Alias { of }, owner.reference)
                } else if width <= owner.width - (first - owner.first) {
                    let references = &mut self.references;
                    let reference = *self.parts.entry((first, width)).or_insert_with(|| {
                        *references += 1;
                        *references
                    });
                    (Role::Part { of }, reference)
                } else {
                    return false;
                }
            }
        };
        self.leaves.push(Leaf { declaration, at, width, first, reference, role });
        true
    }
}

/// What a scalar, or each element of an array of letters, is outside vectors.
fn kind(types: &Types, of: usize) -> Kind {
    let scalar = match types.at(of).body {
        Body::Array { element, .. } => element,
        _ => of,
    };
    match (types.letters(scalar), &types.at(types.scalar_root(scalar)).body) {
        (Letters::Nine, _) => Kind::NineState,
        (Letters::Two, _) => Kind::TwoState,
        (_, Body::Enumeration { .. }) => Kind::U8,
        (_, Body::Real) => Kind::F64,
        _ => Kind::Leb128Signed,
    }
}
