// Links the archive that tools/host/archive.sh wrote: the Rust text asks it for its elementary functions.
fn main() {
    let here = std::env::var("CARGO_MANIFEST_DIR").unwrap();
    println!("cargo:rustc-link-search=native={here}/../../target/host");
    println!("cargo:rustc-link-lib=static=capi");
}
