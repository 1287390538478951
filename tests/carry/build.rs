// Links the archive that has desk_carry, where the feature desk asks for it. DESK_CRATES names the folder of the crates.
fn main() {
    println!("cargo:rerun-if-env-changed=DESK_CRATES");
    if std::env::var_os("CARGO_FEATURE_DESK").is_none() {
        return;
    }
    let crates = std::env::var("DESK_CRATES").expect("DESK_CRATES names the folder of the crates");
    let archive = format!("{crates}/desk_host_c/out/libdesk_host_c.a");
    println!("cargo:rustc-link-arg={archive}");
    println!("cargo:rerun-if-changed={archive}");
}
