//! Maps by hashes whose order is the same in each run.

use ::std::collections::hash_map::{DefaultHasher, Iter, IterMut};
pub use ::std::collections::*;
use ::std::hash::{BuildHasherDefault, Hash};
use ::std::ops::{Deref, DerefMut};

type Inner<K, V> = ::std::collections::HashMap<K, V, BuildHasherDefault<DefaultHasher>>;

/// The standard library's, with a hasher that has no secret.
#[derive(Clone, Debug)]
pub struct HashMap<K, V>(Inner<K, V>);

impl<K, V> HashMap<K, V> {
    pub fn new() -> Self {
        HashMap(Inner::default())
    }
}

impl<K, V> Default for HashMap<K, V> {
    fn default() -> Self {
        Self::new()
    }
}

impl<K, V> Deref for HashMap<K, V> {
    type Target = Inner<K, V>;

    fn deref(&self) -> &Self::Target {
        &self.0
    }
}

impl<K, V> DerefMut for HashMap<K, V> {
    fn deref_mut(&mut self) -> &mut Self::Target {
        &mut self.0
    }
}

impl<K: Eq + Hash, V> FromIterator<(K, V)> for HashMap<K, V> {
    fn from_iter<I: IntoIterator<Item = (K, V)>>(from: I) -> Self {
        HashMap(Inner::from_iter(from))
    }
}

impl<'a, K, V> IntoIterator for &'a HashMap<K, V> {
    type Item = (&'a K, &'a V);
    type IntoIter = Iter<'a, K, V>;

    fn into_iter(self) -> Self::IntoIter {
        self.0.iter()
    }
}

impl<'a, K, V> IntoIterator for &'a mut HashMap<K, V> {
    type Item = (&'a K, &'a mut V);
    type IntoIter = IterMut<'a, K, V>;

    fn into_iter(self) -> Self::IntoIter {
        self.0.iter_mut()
    }
}
