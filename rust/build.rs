//! Finds the library beside this crate and tells the linker where it lies.
use std::env;
use std::path::PathBuf;
use std::process::exit;

fn main() {
    let crate_folder = PathBuf::from(env::var_os("CARGO_MANIFEST_DIR").expect("cargo names the crate's folder"));
    let folder = crate_folder.join("../crates/mws/out");
    let library = folder.join("libmws.a");
    println!("cargo:rerun-if-changed={}", library.display());
    if !library.is_file() {
        eprintln!("no library at {}: run `rt lib` in crates/mws first", library.display());
        exit(1);
    }
    println!("cargo:rustc-link-search=native={}", folder.display());
    println!("cargo:rustc-link-lib=static=mws");
}
