// Links the proved archive. BOKUHIRA_LIB names a folder that has it; else it is the repository's target/staticlib, where tools/archive makes it.
use std::{env, path::PathBuf, process::Command};

const NAME: &str = "bokuhira";

fn main() {
    println!("cargo:rerun-if-env-changed=BOKUHIRA_LIB");
    let root = PathBuf::from(env::var("CARGO_MANIFEST_DIR").unwrap()).join("..");
    let named = env::var("BOKUHIRA_LIB");
    let folder = named.as_ref().map_or(root.join("target/staticlib"), PathBuf::from);
    let archive = folder.join(format!("lib{NAME}.a"));
    println!("cargo:rerun-if-changed={}", archive.display());
    if named.is_err() && !archive.exists() {
        let made = Command::new(root.join("tools/archive")).arg(NAME).status();
        assert!(made.is_ok_and(|s| s.success()), "tools/archive did not make the archive");
    }
    assert!(archive.exists(), "{} is not there", archive.display());
    println!("cargo:rustc-link-search=native={}", folder.display());
    println!("cargo:rustc-link-lib=static={NAME}");
}
