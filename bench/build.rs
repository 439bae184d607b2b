//! Links the archive that `rt lib`, in crates/bench_close, writes.

use std::env;

fn main() {
    let archive = env::var("BENCH_ARCHIVE_DIR").expect("set by bench/run");
    println!("cargo:rustc-link-search=native={archive}");
    println!("cargo:rustc-link-lib=static=bench_close");
    println!("cargo:rerun-if-changed={archive}/libbench_close.a");
    println!("cargo:rerun-if-env-changed=BENCH_ARCHIVE_DIR");
}
