// Writes the include of opcode.rs without any edition: sheets are given, not built in.
use std::{env, fs, path::Path};

fn main() {
    let to = Path::new(&env::var("OUT_DIR").unwrap()).join("bytecode_formats.rs");
    let text = "
fn format_json_for_version(_version: u32) -> Option<&'static str> { None }
fn available_versions() -> &'static [u32] { &[] }
fn builtins_json_for_version(_version: u32) -> Option<&'static str> { None }
fn builtin_table_versions() -> &'static [u32] { &[] }
";
    fs::write(to, text).unwrap();
    println!("cargo:rerun-if-changed=build.rs");
}
