//! How the place of a name is found: by a search through the ids, or by a map.
use crate::log::Id;
use std::collections::HashMap;

pub trait Names: Clone + Default {
    fn place(&self, ids: &[Id], name: &[u8]) -> Option<usize>;
    fn insert(&mut self, name: &[u8], place: usize);
}

/// A linear search: at most 32 ids, whose names are compared with `==`.
#[derive(Clone, Default)]
pub struct Searched;

impl Names for Searched {
    fn place(&self, ids: &[Id], name: &[u8]) -> Option<usize> {
        ids.iter().position(|id| id.name.as_bytes() == name)
    }

    fn insert(&mut self, _: &[u8], _: usize) {}
}

/// The standard library's map from names to places.
#[derive(Clone, Default)]
pub struct Mapped(HashMap<Vec<u8>, usize>);

impl Names for Mapped {
    fn place(&self, _: &[Id], name: &[u8]) -> Option<usize> {
        self.0.get(name).copied()
    }

    fn insert(&mut self, name: &[u8], place: usize) {
        self.0.insert(name.to_vec(), place);
    }
}
