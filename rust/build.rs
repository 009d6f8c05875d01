//! Links the library that `FIXED_DECIMAL_LIB` names, a static or a shared one, or else the static one that `c/build.sh`
//! has made, or that is beside the sources in a release. Nothing is proved here: if there is no library, the build
//! stops.
use std::path::{Path, PathBuf};
use std::process::exit;

fn main() {
    println!("cargo:rerun-if-env-changed=FIXED_DECIMAL_LIB");
    let project = Path::new(env!("CARGO_MANIFEST_DIR")).with_file_name("");
    let named = std::env::var_os("FIXED_DECIMAL_LIB").map(PathBuf::from);
    let released = project.join("lib/libfixed_decimal.a");
    let beside = if released.is_file() { released } else { project.join("c/out/libfixed_decimal.a") };
    let library = named.clone().unwrap_or(beside);
    println!("cargo:rerun-if-changed={}", library.display());
    if !library.is_file() {
        match named {
            Some(_) => eprintln!("there is no library {}, which FIXED_DECIMAL_LIB names", library.display()),
            None => eprintln!(
                "there is no library {}: run `bash {}`, or set FIXED_DECIMAL_LIB to a library",
                library.display(),
                project.join("c/build.sh").display()
            ),
        }
        exit(1)
    }
    let is_static = library.extension().is_some_and(|it| it == "a");
    let kind = if is_static { "static" } else { "dylib" };
    // cargo runs this in the folder of the crate. The linker takes the file of this name, and no other one beside it.
    let file = Path::new(env!("CARGO_MANIFEST_DIR")).join(&library);
    let (folder, name) = (file.with_file_name(""), Path::new(file.file_name().expect("a file has a name")));
    println!("cargo:rustc-link-search=native={}", folder.display());
    println!("cargo:rustc-link-lib={kind}:+verbatim={}", name.display());
}
