//! What names an object.

#[derive(Clone, Copy, Debug, PartialEq, Eq)]
pub struct Id {
    pub slot: u32,
    pub generation: u32,
}
