//! Links the proved functions: those exported for tests and the four of the store, each to its own binary.

fn main() {
    let root = std::env::var("CARGO_MANIFEST_DIR").unwrap();
    for (binary, library) in [("compare", "test_api"), ("calls", "c_api_c")] {
        let path = format!("{root}/../../crates/{library}/out/lib{library}.a");
        println!("cargo:rustc-link-arg-bin={binary}={path}");
        println!("cargo:rerun-if-changed={path}");
    }
}
