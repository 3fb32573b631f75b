pub mod collision;
pub mod common;
