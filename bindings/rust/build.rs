//! Says where the archive of the limiters is: `FROSTAXLE_LIB` names the folder of `libabi.a`, else it is the
//! repository's `target/staticlib`, where the repository's `archive` puts it.
use std::env;
use std::path::PathBuf;

fn main() {
    println!("cargo:rerun-if-env-changed=FROSTAXLE_LIB");
    let folder = match env::var_os("FROSTAXLE_LIB") {
        Some(folder) => PathBuf::from(folder),
        None => PathBuf::from(env!("CARGO_MANIFEST_DIR")).join("../../target/staticlib"),
    };
    let archive = folder.join("libabi.a");
    if !archive.is_file() {
        println!(
            "cargo:warning={} is not there: run `./archive` in the repository, or name its folder in FROSTAXLE_LIB",
            archive.display()
        );
    }
    println!("cargo:rerun-if-changed={}", archive.display());
    println!("cargo:rustc-link-search=native={}", folder.display());
}
