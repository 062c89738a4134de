//! Tests of the library from outside: a model of docs/SCOPE.md, makers of random cases, the stored
//! cases, and each call of the C interface held against the model.

pub mod asking;
pub mod cases;
pub mod earlier;
pub mod ends;
pub mod ground;
pub mod history;
pub mod making;
pub mod model;
pub mod paint;
pub mod process;
pub mod random;
pub mod stored;
pub mod tally;
pub mod telling;
