// Links with libheskavo.a, which is in the folder that HESKAVO_LIB names, or in /usr/local/lib.
fn main() {
    println!("cargo:rerun-if-env-changed=HESKAVO_LIB");
    let folder = std::env::var("HESKAVO_LIB").unwrap_or_else(|_| "/usr/local/lib".to_string());
    println!("cargo:rustc-link-search=native={folder}");
    println!("cargo:rustc-link-lib=static=heskavo");
}
