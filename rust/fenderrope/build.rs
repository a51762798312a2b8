//! Links the proved library, `libfenderrope.a`: from the folder that FENDERROPE_LIB_DIR names, else from the
//! repository's target/lib, where `make lib` puts it.

use std::env;
use std::path::PathBuf;

fn main() {
    println!("cargo:rerun-if-env-changed=FENDERROPE_LIB_DIR");
    let folder = match env::var_os("FENDERROPE_LIB_DIR") {
        Some(folder) => PathBuf::from(folder),
        None => PathBuf::from(env::var_os("CARGO_MANIFEST_DIR").expect("cargo names the package's folder"))
            .join("../../target/lib"),
    };
    let library = folder.join("libfenderrope.a");
    println!("cargo:rerun-if-changed={}", library.display());
    let Ok(library) = library.canonicalize() else {
        panic!(
            "{} is not there: run `make lib` in the repository, or name the library's folder in FENDERROPE_LIB_DIR",
            library.display()
        );
    };
    println!("cargo:rustc-link-search=native={}", library.with_file_name("").display());
    println!("cargo:rustc-link-lib=static=fenderrope");
}
