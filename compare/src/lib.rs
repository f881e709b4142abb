//! The proved crates beside the second planner, as static libraries: `kestrenyo` with the three asks,
//! `test_scan` (modules `scan`, `card`, `bundle`, `targets`, `names`) and `test_manifest` (`manifest`). Nothing
//! checks these declarations against the Rattle sources, so they are few; slices pass as a pointer
//! and a length.

pub mod adversary;
pub mod asks;
pub mod bundle;
pub mod card;
pub mod folders;
pub mod manifest;
pub mod measure;
pub mod minimise;
pub mod names;
pub mod scan;
pub mod settings;
pub mod targets;
