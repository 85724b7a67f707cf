//! Links libuecp.a of the folder that UECP_DIR names, or else of /usr/local/lib.
fn main() {
    let folder = std::env::var("UECP_DIR").unwrap_or_else(|_| "/usr/local/lib".into());
    println!("cargo:rustc-link-search=native={folder}");
    println!("cargo:rustc-link-lib=static=uecp");
    println!("cargo:rerun-if-env-changed=UECP_DIR");
    println!("cargo:rerun-if-changed={folder}/libuecp.a");
}
