// Tells cargo where the static library is: in the folder that THAOLISEM_LIB names, else in target/lib of the repository that this crate stands in.
// The crate's folder is asked for when this runs: a script compiled in one checkout may run in a copy of it.
use std::env;
use std::path::PathBuf;

fn main() {
    println!("cargo:rerun-if-env-changed=THAOLISEM_LIB");
    let crate_folder = PathBuf::from(env::var_os("CARGO_MANIFEST_DIR").expect("cargo names it"));
    let folder = match env::var_os("THAOLISEM_LIB") {
        Some(named) => crate_folder.join(named),
        None => crate_folder.join("../../target/lib"),
    };
    let archive = folder.join("libthaolisem.a");
    println!("cargo:rerun-if-changed={}", archive.display());
    if !archive.is_file() {
        eprintln!("{} is not there.", archive.display());
        eprintln!("`make lib` in the repository builds it; THAOLISEM_LIB names its folder where the crate stands elsewhere, as a packaged copy does.");
        std::process::exit(1);
    }
    println!("cargo:rustc-link-search=native={}", folder.display());
}
