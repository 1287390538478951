// Links libdesk.a from the folder that DESK_LIB names, or from where `make` leaves it in this repository.
use std::path::PathBuf;

fn main() {
    println!("cargo:rerun-if-env-changed=DESK_LIB");
    let here = PathBuf::from(std::env::var_os("CARGO_MANIFEST_DIR").expect("cargo names the crate's folder"));
    let folder = std::env::var_os("DESK_LIB").map_or(here.join("../../target/host-kit"), PathBuf::from);
    let library = folder.join("libdesk.a");
    if !library.is_file() {
        let missing = library.display();
        panic!("{missing} is not there: run make at the top of the repository, or name libdesk.a's folder in DESK_LIB");
    }
    println!("cargo:rustc-link-search=native={}", folder.display());
    println!("cargo:rustc-link-lib=static=desk");
    println!("cargo:rerun-if-changed={}", library.display());
}
