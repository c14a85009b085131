//! Stand-in for the crate `rustc_hash`: a set; which hash it uses does not show.
pub type FxHashSet<T> = std::collections::HashSet<T>;
