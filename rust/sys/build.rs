//! Links the library that `make library` builds at the top of the repository.
use std::path::Path;

fn main() {
    let folder = Path::new(env!("CARGO_MANIFEST_DIR")).join("../../target");
    let library = folder.join("libthayarqo.a");
    println!("cargo::rerun-if-changed={}", library.display());
    if !library.exists() {
        println!(
            "cargo::error=the proved library isn't built: run `make library` at the top of the repository, \
             which makes target/libthayarqo.a"
        );
        return;
    }
    println!("cargo::rustc-link-search=native={}", folder.display());
    println!("cargo::rustc-link-lib=static=thayarqo");
}
