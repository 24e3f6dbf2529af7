//! What programs in plain Rust share; none of them uses all of it.
#![allow(dead_code)]

pub mod answers;
pub mod asking;
pub mod awaiting;
pub mod bits;
pub mod body;
pub mod cases;
pub mod creating;
pub mod directory;
pub mod given;
pub mod handles;
pub mod herds;
pub mod id;
pub mod journal;
pub mod lives;
pub mod manager;
pub mod objects;
pub mod pins;
pub mod printing;
pub mod runs;
pub mod saving;
pub mod sha256;
pub mod table;
pub mod waiting;
pub mod words;
