//! Links the static library.
//!
//! `TREE_INDEX_LIB_DIR` names its folder. Without it the archive of `bindings/dist` is taken if the checkout has one for the
//! target, and else the linker's own folders are searched.
use std::env;
use std::path::{Path, PathBuf};

/// Returns the folder of the checkout's archive for the target, if it has one.
fn in_checkout() -> Option<PathBuf> {
    let target = ["ARCH", "OS", "ENV"].map(|part| env::var(format!("CARGO_CFG_TARGET_{part}")).unwrap_or_default());
    let here = env::var_os("CARGO_MANIFEST_DIR")?;
    let folder = Path::new(&here).join("../dist").join(target.join("-"));
    folder.is_dir().then_some(folder)
}

fn main() {
    println!("cargo:rerun-if-env-changed=TREE_INDEX_LIB_DIR");
    let named = env::var_os("TREE_INDEX_LIB_DIR").map(PathBuf::from);
    if let Some(folder) = named.or_else(in_checkout) {
        println!("cargo:rustc-link-search=native={}", folder.display());
        println!("cargo:rerun-if-changed={}", folder.join("libtree_index_c.a").display());
    }
    println!("cargo:rustc-link-lib=static=tree_index_c");
}
