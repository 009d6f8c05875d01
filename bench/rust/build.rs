//! Links the library, whose folder is LIBRARY, the kit's C, whose folder is KIT_C, and the calls of ICU, in ICU_CALLS.
//! The linker, in the folder LLD, places the functions in an order that depends on the number LAYOUT.

fn main() {
    for name in ["LIBRARY", "KIT_C", "ICU_CALLS"] {
        let folder = std::env::var(name).expect("run.sh sets it");
        println!("cargo:rustc-link-search=native={folder}");
        println!("cargo:rerun-if-changed={folder}");
        println!("cargo:rerun-if-env-changed={name}");
    }
    println!("cargo:rustc-link-lib=static=decimal_times");
    println!("cargo:rustc-link-lib=static=libc_c");
    println!("cargo:rustc-link-lib=static=icu_calls");
    println!("cargo:rustc-link-lib=icui18n");
    println!("cargo:rustc-link-lib=icuuc");
    println!("cargo:rustc-link-lib=stdc++");
    let (lld, layout) = (std::env::var("LLD"), std::env::var("LAYOUT"));
    println!("cargo:rerun-if-env-changed=LAYOUT");
    println!("cargo:rustc-link-arg=-B{}", lld.expect("run.sh sets it"));
    println!("cargo:rustc-link-arg=-fuse-ld=lld");
    println!("cargo:rustc-link-arg=-Wl,--shuffle-sections=.text*={}", layout.expect("run.sh sets it"));
}
