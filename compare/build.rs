//! With the feature `linked`: links the proved static library of the folder that `ODHRASHUP_LIBRARY` names.

fn main() {
    println!("cargo:rerun-if-env-changed=ODHRASHUP_LIBRARY");
    if std::env::var_os("CARGO_FEATURE_LINKED").is_none() {
        return;
    }
    let folder = std::env::var("ODHRASHUP_LIBRARY").expect("the folder of libodhrashup.a");
    println!("cargo:rerun-if-changed={folder}/libodhrashup.a");
    println!("cargo:rustc-link-search=native={folder}");
    println!("cargo:rustc-link-lib=static=odhrashup");
}
