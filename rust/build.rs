// Links the engine's static library: LLWYBRENU_LIB names its folder, else it is where `./library` writes it.
use std::{env, path::PathBuf};

fn main() {
    let here =
        PathBuf::from(env::var("CARGO_MANIFEST_DIR").expect("cargo names the manifest's folder"));
    let folder =
        env::var("LLWYBRENU_LIB").map_or_else(|_| here.join("../target/staticlib"), PathBuf::from);
    println!("cargo:rustc-link-search=native={}", folder.display());
    println!("cargo:rustc-link-lib=static=engine");
    println!("cargo:rerun-if-env-changed=LLWYBRENU_LIB");
    println!(
        "cargo:rerun-if-changed={}",
        folder.join("libengine.a").display()
    );
}
