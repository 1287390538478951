// Stand-in for file/mod.rs: `string_at` as document 01 says, the entry of that index if it is below the count.
pub mod parser {
    pub mod instructions;
}
mod structure;

use crate::error::Result;
use crate::opcode::BytecodeFormat;
pub use structure::*;

impl BytecodeFile {
    pub fn string_at(&self, id: u32) -> Option<&StringTableEntry> {
        self.strings.get(id as usize)
    }

    pub fn decode_function_instructions(
        &self,
        format: &BytecodeFormat,
        function_id: u32,
    ) -> Result<Vec<Instruction>> {
        parser::instructions::decode_function_instructions(self, format, function_id)
    }
}
