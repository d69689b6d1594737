//! The comparison of books and files. `calls` has a book's calls as data, `side` one build behind
//! one trait; `random`, `heads` and `damage` make books and damaged files from a seed (`rng`);
//! `run` compares, `shrink` shortens what differs. What the second build itself is held against:
//! `plain`, `definition`, `acceptance`.

pub mod acceptance;
pub mod calls;
pub mod damage;
pub mod definition;
pub mod heads;
pub mod plain;
pub mod random;
pub mod rng;
pub mod run;
pub mod shrink;
pub mod side;
