//! Links the proved functions if `native.sh` has built them.

use std::path::Path;

fn main() {
    let folder = Path::new(env!("CARGO_MANIFEST_DIR")).join("../target/native");
    let names = ["luffgravel_native", "luffgravel_cells"];
    let archives = names.map(|name| folder.join(format!("lib{name}.a")));
    for archive in &archives {
        println!("cargo:rerun-if-changed={}", archive.display());
    }
    println!("cargo:rustc-check-cfg=cfg(proved)");
    if archives.iter().all(|archive| archive.is_file()) {
        println!("cargo:rustc-link-search=native={}", folder.display());
        for name in names {
            println!("cargo:rustc-link-lib=static={name}");
        }
        println!("cargo:rustc-cfg=proved");
    }
}
