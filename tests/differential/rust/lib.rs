// Stand-in for the crate's root: the published modules, and the few that were not published.
#![allow(dead_code, unused_imports)]
pub mod constants;
pub mod debug;
pub mod disasm;
pub mod error;
pub mod file;
pub mod format;
pub mod io;
pub mod opcode;
pub mod util;
pub mod write;
