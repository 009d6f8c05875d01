//! Links the library, whose folder is LIBRARY, the kit's C, whose folder is KIT_C, and `malloc` by way of `memory.rs`.

fn main() {
    for name in ["LIBRARY", "KIT_C"] {
        let folder = std::env::var(name).expect("run.sh sets it");
        println!("cargo:rustc-link-search=native={folder}");
        println!("cargo:rerun-if-changed={folder}");
        println!("cargo:rerun-if-env-changed={name}");
    }
    println!("cargo:rustc-link-lib=static=decimal_calls");
    println!("cargo:rustc-link-lib=static=libc_c");
    println!("cargo:rustc-link-arg=-Wl,--wrap=malloc,--wrap=realloc");
}
