//! Stand-in for the crate num_enum: the trait and the derive that the crate's files use.
pub use standin_derive::TryFromPrimitive;
use std::fmt::{Debug, Display, Formatter};

pub trait TryFromPrimitive: Sized {
    type Primitive: Copy + Debug;
    fn try_from_primitive(number: Self::Primitive) -> Result<Self, TryFromPrimitiveError<Self>>;
}

pub struct TryFromPrimitiveError<E: TryFromPrimitive> {
    pub number: E::Primitive,
}

impl<E: TryFromPrimitive> Debug for TryFromPrimitiveError<E> {
    fn fmt(&self, f: &mut Formatter<'_>) -> std::fmt::Result {
        write!(f, "no variant has the number {:?}", self.number)
    }
}

impl<E: TryFromPrimitive> Display for TryFromPrimitiveError<E> {
    fn fmt(&self, f: &mut Formatter<'_>) -> std::fmt::Result {
        Debug::fmt(self, f)
    }
}
