fn main() {
    println!("cargo:rustc-link-search={}/../target/staticlib", env!("CARGO_MANIFEST_DIR"));
    println!("cargo:rustc-link-lib=static=measured");
    println!("cargo:rustc-link-lib=static=export");
}
