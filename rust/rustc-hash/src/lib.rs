//! The map that nanobook's unchanged files walk positions by. An ordered map makes that walk go in symbol order, so
//! that the order exceptions of document 01 do not arise.

pub type FxHashMap<K, V> = std::collections::BTreeMap<K, V>;
