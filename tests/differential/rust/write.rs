// Stand-in for write/mod.rs.
pub mod encode;
pub mod hasm;
