//! Links `libboc.a` from the folder that `BOC_LIB_DIR` names.

use std::path::Path;

fn main() {
    println!("cargo::rerun-if-env-changed=BOC_LIB_DIR");
    let Ok(folder) = std::env::var("BOC_LIB_DIR") else {
        println!("cargo::error=BOC_LIB_DIR is not set: it names the folder that has libboc.a");
        return;
    };
    let library = Path::new(&folder).join("libboc.a");
    if !library.is_absolute() || !library.is_file() {
        println!("cargo::error=BOC_LIB_DIR is {folder}: there is no {} by its full path", library.display());
        return;
    }
    println!("cargo::rerun-if-changed={}", library.display());
    println!("cargo::rustc-link-search=native={folder}");
    println!("cargo::rustc-link-lib=static=boc");
}
