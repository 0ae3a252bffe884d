//! Links libcorwystal.a into the crate. Looked for in the folder named by CORWYSTAL_LIB_DIR, else where bindings/library or bindings/install puts it.
use std::{env, path::PathBuf, process::exit};

fn folder() -> PathBuf {
    if let Some(named) = env::var_os("CORWYSTAL_LIB_DIR") {
        return PathBuf::from(named);
    }
    let here = PathBuf::from(env::var_os("CARGO_MANIFEST_DIR").expect("build.rs is run by cargo"));
    let installed = here.ends_with("share/corwystal/rust");
    here.join(if installed {
        "../../../lib"
    } else {
        "../../target/bindings"
    })
}

fn main() {
    println!("cargo::rerun-if-env-changed=CORWYSTAL_LIB_DIR");
    let library = folder().join("libcorwystal.a");
    println!("cargo::rerun-if-changed={}", library.display());
    if !library.is_file() {
        eprintln!(
            "corwystal: there is no {}: run bindings/library, or name the library's folder by its full path in CORWYSTAL_LIB_DIR",
            library.display()
        );
        exit(1);
    }
    // the full path, since the linker is run from another folder than this program
    let folder = folder().canonicalize().expect("a folder with a file in it");
    println!("cargo::rustc-link-search=native={}", folder.display());
    println!("cargo::rustc-link-lib=static=corwystal");
}
