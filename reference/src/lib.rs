//! The site box a second time, written from docs/ alone. It shares no code and no table with the crates; it is
//! there to compare answers with. "Flows to" is decided by trying every set of conditions, and programs are trees.

pub mod bundle;
pub mod lattice;
pub mod machine;
pub mod policy;
pub mod program;
pub mod record;
pub mod sheet;
pub mod store;
pub mod stream;
