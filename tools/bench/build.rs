// Links `crates/monitor_c/out/libmonitor_c.a` of the repository, which `tools/build monitor_c` writes.
use std::env;
use std::path::Path;

fn main() {
    let here = env::var("CARGO_MANIFEST_DIR").expect("cargo sets it");
    let library = Path::new(&here).join("../../crates/monitor_c/out");
    println!("cargo:rustc-link-search=native={}", library.display());
    println!("cargo:rustc-link-lib=static=monitor_c");
    println!("cargo:rerun-if-changed={}", library.join("libmonitor_c.a").display());
}
