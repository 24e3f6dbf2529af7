//! Where libobman is: the folder that OBMAN_LIB names, or that of the tree in which this package was installed
//! (share/obman/bindings/rust), or what pkg-config says.

use std::path::Path;
use std::process::Command;

fn main() {
    println!("cargo:rerun-if-env-changed=OBMAN_LIB");
    let package = Path::new(env!("CARGO_MANIFEST_DIR"));
    let beside = package.join("../../../../lib");
    if let Ok(folder) = std::env::var("OBMAN_LIB") {
        println!("cargo:rustc-link-search=native={folder}");
    } else if package.ends_with("share/obman/bindings/rust") && beside.join("libobman.a").exists() {
        println!("cargo:rustc-link-search=native={}", beside.display());
    } else if let Ok(said) = Command::new("pkg-config").args(["--libs-only-L", "obman"]).output() {
        for word in String::from_utf8_lossy(&said.stdout).split_whitespace() {
            if let Some(folder) = word.strip_prefix("-L") {
                println!("cargo:rustc-link-search=native={folder}");
            }
        }
    }
    println!("cargo:rustc-link-lib=static=obman");
}
