//! Links libpayload.a from the folder PAYLOAD_LIB_DIR, or from
//! target/staticlib of the repository.

fn main() {
    println!("cargo:rerun-if-env-changed=PAYLOAD_LIB_DIR");
    let folder = std::env::var("PAYLOAD_LIB_DIR").unwrap_or_else(|_| {
        concat!(env!("CARGO_MANIFEST_DIR"), "/../../target/staticlib").to_string()
    });
    println!("cargo:rerun-if-changed={folder}/libpayload.a");
    println!("cargo:rustc-link-search=native={folder}");
    println!("cargo:rustc-link-lib=static=payload");
}
