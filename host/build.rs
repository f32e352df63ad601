// Tells cargo where the archive of crate capi lies, for builds with the feature `port`, and to link anew when it has changed.

fn main() {
    println!("cargo:rerun-if-changed=build.rs");
    if std::env::var_os("CARGO_FEATURE_PORT").is_none() {
        return;
    }
    let here = std::env::var("CARGO_MANIFEST_DIR").expect("cargo names the package's directory");
    let archives = format!("{here}/../crates/capi/out");
    println!("cargo:rerun-if-changed={archives}/libcapi.a");
    println!("cargo:rustc-link-search=native={archives}");
}
