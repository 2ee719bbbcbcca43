use std::env;
use std::path::PathBuf;

fn main() {
    let package = env::var("CARGO_MANIFEST_DIR").expect("cargo names the package's folder");
    let folder = match env::var("CAPI_DIR") {
        Ok(folder) => PathBuf::from(folder),
        Err(_) => PathBuf::from(package).join("../../target/staticlib"),
    };
    println!("cargo:rustc-link-search=native={}", folder.display());
    println!("cargo:rustc-link-lib=static=capi");
    println!("cargo:rerun-if-env-changed=CAPI_DIR");
    println!(
        "cargo:rerun-if-changed={}",
        folder.join("libcapi.a").display()
    );
}
