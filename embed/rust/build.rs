//! Finds `libqtree.a`: in the folder that `QTREE_LIB` names, else in `lib`, where a package has it,
//! or where `make -C embed/c` leaves it.
use std::path::PathBuf;
use std::{env, fs};

/// What a library without proofs defines.
const NOT_PROVED: &[u8] = b"qtree_not_proved";

fn main() {
    println!("cargo::rerun-if-env-changed=QTREE_LIB");
    let named = env::var_os("QTREE_LIB").map(PathBuf::from);
    let crate_folder = PathBuf::from(env::var_os("CARGO_MANIFEST_DIR").unwrap_or_default());
    let beside = ["lib", "../c/build"].map(|it| crate_folder.join(it));
    let folder = named.unwrap_or_else(|| {
        let found = beside.iter().find(|it| it.join("libqtree.a").exists());
        found.unwrap_or(&beside[1]).clone()
    });
    let library = folder.join("libqtree.a");
    println!("cargo::rerun-if-changed={}", library.display());
    let Ok(bytes) = fs::read(&library) else {
        println!(
            "cargo::error=the library {} cannot be read: build it by `rt lib` in crates/qtree_c (or, without proofs, `embed/library --unproved`) and `make` in embed/c, or name the folder of a libqtree.a in QTREE_LIB",
            library.display()
        );
        return;
    };
    if bytes.windows(NOT_PROVED.len()).any(|it| it == NOT_PROVED) {
        println!("cargo::warning={} is NOT proved", library.display());
    }
    println!("cargo::rustc-link-search=native={}", folder.display());
    println!("cargo::rustc-link-lib=static=qtree");
}
