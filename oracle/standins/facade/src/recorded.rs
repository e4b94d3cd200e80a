//! A hash map with the part of std's interface that the taken files use. Its hasher is a plain
//! multiplication, since the harness fills and empties memories millions of times.

use crate::touches::Key;
use std::collections::hash_map::{self, HashMap as Plain};
use std::hash::{BuildHasherDefault, Hash, Hasher};
use std::ops::Index;

#[derive(Clone, Default)]
pub struct Multiply(u64);

impl Hasher for Multiply {
    fn finish(&self) -> u64 {
        self.0
    }

    fn write(&mut self, bytes: &[u8]) {
        for &byte in bytes {
            self.write_u64(byte as u64);
        }
    }

    fn write_u64(&mut self, word: u64) {
        self.0 = (self.0.rotate_left(23) ^ word).wrapping_mul(0x9E37_79B9_7F4A_7C15).rotate_left(32);
    }
}

#[derive(Clone)]
pub struct HashMap<K, V> {
    plain: Plain<K, V, BuildHasherDefault<Multiply>>,
}

impl<K, V> Default for HashMap<K, V> {
    fn default() -> Self {
        Self { plain: Plain::default() }
    }
}

impl<K: Key + Eq + Hash, V> HashMap<K, V> {
    pub fn new() -> Self {
        Self::default()
    }

    pub fn get(&self, key: &K) -> Option<&V> {
        key.note(false);
        self.plain.get(key)
    }

    pub fn get_mut(&mut self, key: &K) -> Option<&mut V> {
        key.note(true);
        self.plain.get_mut(key)
    }

    pub fn insert(&mut self, key: K, value: V) -> Option<V> {
        key.note(true);
        self.plain.insert(key, value)
    }

    pub fn remove(&mut self, key: &K) -> Option<V> {
        key.note(true);
        self.plain.remove(key)
    }

    pub fn keys(&self) -> hash_map::Keys<'_, K, V> {
        self.plain.keys()
    }

    pub fn clear(&mut self) {
        self.plain.clear();
    }
}

impl<K: Key + Eq + Hash, V> Index<&K> for HashMap<K, V> {
    type Output = V;

    fn index(&self, key: &K) -> &V {
        key.note(false);
        &self.plain[key]
    }
}
