// Links the archive of the page functions, which stands beside the layer's.
use std::{env, path::PathBuf};

fn main() {
    println!("cargo:rerun-if-env-changed=BOKUHIRA_LIB");
    let root = PathBuf::from(env::var("CARGO_MANIFEST_DIR").unwrap()).join("../..");
    let folder = env::var("BOKUHIRA_LIB").map_or_else(|_| root.join("target/staticlib"), PathBuf::from);
    println!("cargo:rerun-if-changed={}", folder.join("libpageffi.a").display());
    println!("cargo:rustc-link-search=native={}", folder.display());
    println!("cargo:rustc-link-lib=static=pageffi");
}
