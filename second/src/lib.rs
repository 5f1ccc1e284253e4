//! The independent second program: written and changed by the text of 01 and 02 alone, to be compared with the proved one.

pub mod bodies;
pub mod calls;
pub mod cover;
pub mod enumeration;
pub mod figures;
pub mod joint;
pub mod listing;
pub mod plain;
pub mod plan;
pub mod reader;
pub mod refusal;
pub mod rows;
pub mod single;
pub mod viewer;
