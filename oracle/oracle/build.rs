//! Copies signature.rs and structure.rs next to the build and appends one line
//! to each, which declares a child module. A child sees what is private there.

use std::path::Path;
use std::{env, fs};

fn main() {
    let here = env::var("CARGO_MANIFEST_DIR").expect("set by cargo");
    let out = env::var("OUT_DIR").expect("set by cargo");
    let (here, out) = (Path::new(&here), Path::new(&out));
    let mut modules = String::new();
    for (file, child) in [("signature", "declare"), ("structure", "harness")] {
        let published = here.join(format!("../eqlog/src/algebra/{file}.rs"));
        let built = out.join(format!("{file}.rs"));
        let child_file = here.join(format!("src/{child}.rs"));
        let text = fs::read_to_string(&published).expect("the published file is there");
        let with_child = format!("{text}#[path = {child_file:?}] pub mod {child};\n");
        fs::write(&built, with_child).expect("the build directory can be written");
        modules += &format!("#[allow(dead_code, unreachable_code, unused_variables, clippy::all)] #[path = {built:?}] pub mod {file};\n");
        println!("cargo:rerun-if-changed={}", published.display());
    }
    fs::write(out.join("algebra.rs"), modules).expect("the build directory can be written");
}
