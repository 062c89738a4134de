//! What a program that takes at most 16 lists answers, writes and prints. How the bytes of a book
//! are read, judged and written is copied here. Nodes, lists, pages, the words of questions and
//! answers are the model's, and so are the types of a book, which are only shapes.

pub mod books;
pub mod printing;
pub mod questions;
