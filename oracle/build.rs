//! With the feature `linked`, links the archives of the proved library, which
//! `rt lib` makes in each crate's folder.

/// The crates, and what their archives are called: the functions of
/// `sampling_parts` are handed to C by a crate of their own.
const ARCHIVES: [(&str, &str); 3] = [
    ("lemongully", "lemongully"),
    ("float_bench", "float_bench"),
    ("sampling_parts_c", "sampling_parts"),
];

fn main() {
    println!("cargo:rerun-if-changed=build.rs");
    if std::env::var_os("CARGO_FEATURE_LINKED").is_none() {
        return;
    }
    let root = std::env::var("CARGO_MANIFEST_DIR").expect("cargo sets it");
    let folder = std::env::var("OUT_DIR").expect("cargo sets it");
    println!("cargo:rustc-link-search=native={folder}");
    for (name, archive) in ARCHIVES {
        let made = format!("{root}/../crates/{name}/out/lib{name}.a");
        println!("cargo:rerun-if-changed={made}");
        std::fs::copy(&made, format!("{folder}/lib{archive}.a"))
            .unwrap_or_else(|e| panic!("{made}: {e}: run `rt lib` in crates/{name} first"));
        println!("cargo:rustc-link-lib=static={archive}");
    }
}
