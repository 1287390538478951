// Links the desk's archives behind the driver, which is what needs them. DESK_CRATES names the folder of the crates.
fn main() {
    let crates = std::env::var("DESK_CRATES").expect("DESK_CRATES names the folder of the crates");
    for name in ["desk_host_c", "desk_parts_c"] {
        let archive = format!("{crates}/{name}/out/lib{name}.a");
        println!("cargo:rustc-link-arg={archive}");
        println!("cargo:rerun-if-changed={archive}");
    }
    println!("cargo:rerun-if-env-changed=DESK_CRATES");
}
