//! Links the product's archive, which lies in the folder that SARRIDOK_LIB names.
fn main() {
    let folder = std::env::var("SARRIDOK_LIB").expect("SARRIDOK_LIB names the folder of libsarridok_c.a");
    println!("cargo:rerun-if-env-changed=SARRIDOK_LIB");
    println!("cargo:rerun-if-changed={folder}/libsarridok_c.a");
    println!("cargo:rustc-link-search=native={folder}");
    println!("cargo:rustc-link-lib=static=sarridok_c");
}
