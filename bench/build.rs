//! Links the static library of the crate bench_calls, which `rt lib` writes in the folder of that crate.
fn main() {
    let root = std::env::var("CARGO_MANIFEST_DIR").expect("cargo sets it");
    println!("cargo:rustc-link-search=native={root}/../crates/bench_calls/out");
    println!("cargo:rustc-link-lib=static=bench_calls");
    println!("cargo:rerun-if-changed={root}/../crates/bench_calls/out/libbench_calls.a");
}
