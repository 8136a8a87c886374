//! Only for the feature `ours`, which the script `bench` turns on: links the static library
//! `timing`, from the folder that `TIMING_LIBRARY` names.

fn main() {
    println!("cargo::rerun-if-changed=build.rs");
    if std::env::var_os("CARGO_FEATURE_OURS").is_none() {
        return;
    }
    println!("cargo::rerun-if-env-changed=TIMING_LIBRARY");
    let folder = std::env::var("TIMING_LIBRARY").expect("TIMING_LIBRARY names the folder of libtiming.a");
    println!("cargo::rerun-if-changed={folder}/libtiming.a");
    println!("cargo::rustc-link-search=native={folder}");
    println!("cargo::rustc-link-lib=static=timing");
}
