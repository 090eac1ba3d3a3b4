// Links the archive that tools/host/archive.sh wrote, and Algorithm 644 where run.sh compiled it.
fn main() {
    let top = format!("{}/../../target", std::env::var("CARGO_MANIFEST_DIR").unwrap());
    println!("cargo:rustc-link-search=native={top}/host");
    println!("cargo:rustc-link-lib=static=capi");
    println!("cargo:rerun-if-changed={top}/host/libcapi.a");
    if std::env::var("CARGO_FEATURE_FORTRAN").is_ok() {
        println!("cargo:rustc-link-search=native={top}/differences");
        println!("cargo:rustc-link-lib=static=algorithm_644");
        println!("cargo:rerun-if-changed={top}/differences/libalgorithm_644.a");
    }
}
