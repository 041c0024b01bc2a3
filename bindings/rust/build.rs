// Links the static library `liblnav.a`, from the folder that LNAV_LIBRARY_DIR names, or else from the repository's target folder.
use std::env;
use std::path::PathBuf;

fn main() {
    let own =
        PathBuf::from(env::var_os("CARGO_MANIFEST_DIR").expect("cargo sets CARGO_MANIFEST_DIR"));
    let folder = match env::var_os("LNAV_LIBRARY_DIR") {
        Some(folder) => PathBuf::from(folder),
        None => own.join("../../target/staticlib"),
    };
    let library = folder.join("liblnav.a");
    println!("cargo:rerun-if-env-changed=LNAV_LIBRARY_DIR");
    println!("cargo:rerun-if-changed={}", library.display());
    if !library.is_file() {
        panic!(
            "no {}: make it by `bindings/library`",
            library.display()
        );
    }
    println!("cargo:rustc-link-search=native={}", folder.display());
    println!("cargo:rustc-link-lib=static=lnav");
}
