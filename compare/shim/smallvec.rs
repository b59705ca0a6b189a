//! Stand-in for the crate smallvec, as far as `signal/value.rs` names it; nothing compared here uses it.
use std::marker::PhantomData;
use std::ops::{Deref, DerefMut};

pub struct SmallVec<A> {
    bytes: Vec<u8>,
    of: PhantomData<A>,
}

impl<A> SmallVec<A> {
    pub fn from_bytes(bytes: Vec<u8>) -> Self {
        SmallVec { bytes, of: PhantomData }
    }
    pub fn push(&mut self, byte: u8) {
        self.bytes.push(byte);
    }
}

impl<A> Clone for SmallVec<A> {
    fn clone(&self) -> Self {
        Self::from_bytes(self.bytes.clone())
    }
}

impl<A> std::fmt::Debug for SmallVec<A> {
    fn fmt(&self, f: &mut std::fmt::Formatter<'_>) -> std::fmt::Result {
        self.bytes.fmt(f)
    }
}

impl<A> Deref for SmallVec<A> {
    type Target = [u8];
    fn deref(&self) -> &[u8] {
        &self.bytes
    }
}

impl<A> DerefMut for SmallVec<A> {
    fn deref_mut(&mut self) -> &mut [u8] {
        &mut self.bytes
    }
}

pub trait ToSmallVec<A> {
    fn to_smallvec(&self) -> SmallVec<A>;
}

impl<A> ToSmallVec<A> for [u8] {
    fn to_smallvec(&self) -> SmallVec<A> {
        SmallVec::from_bytes(self.to_vec())
    }
}

#[macro_export]
macro_rules! smallvec {
    () => {
        $crate::SmallVec::from_bytes(Vec::new())
    };
    ($byte:expr; $count:expr) => {
        $crate::SmallVec::from_bytes(vec![$byte; $count])
    };
}
