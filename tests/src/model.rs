//! What docs/SCOPE.md says, told again in the plainest way: every node is held against every other,
//! and nothing is carried along from one node to the next. It calls nothing of the library and was
//! written from docs/SCOPE.md alone.

pub mod answers;
pub mod books;
pub mod links;
pub mod lists;
pub mod marks;
pub mod nodes;
pub mod pages;
pub mod printing;
pub mod questions;
pub mod readings;
pub mod sheets;
pub mod strict;

/// The most nodes of a list, rows of a table and marks of a document.
pub const MOST: usize = 4_096;
