// Links the calls to be measured: `tools/build library timed` and `tools/build library hidzvoma` write the
// archives.
fn main() {
    let root = std::env::var("CARGO_MANIFEST_DIR").unwrap();
    println!("cargo:rustc-link-search=native={root}/../../target/staticlib");
    for name in ["timed", "hidzvoma"] {
        println!("cargo:rustc-link-lib=static={name}");
        println!("cargo:rerun-if-changed={root}/../../target/staticlib/lib{name}.a");
    }
}
