//! Finds libzermuita by pkg-config. With `ZERMUITA_STATIC` in the environment the archive is linked.

use std::path::Path;

const NAME: &str = "zermuita";

fn main() {
    println!("cargo:rerun-if-env-changed=ZERMUITA_STATIC");
    let is_static = std::env::var_os("ZERMUITA_STATIC").is_some();
    let library = pkg_config::Config::new()
        .range_version("0.2".."0.3")
        .statik(is_static)
        .env_metadata(true)
        .cargo_metadata(!is_static)
        .probe(NAME);
    let library = match library {
        Ok(library) => library,
        Err(error) => {
            eprintln!("{error}");
            eprintln!("libzermuita 0.2 is needed: install it with tools/install PREFIX of its repository,");
            eprintln!("or the package libzermuita-dev, and name PREFIX/lib/pkgconfig in PKG_CONFIG_PATH");
            std::process::exit(1);
        }
    };
    if is_static {
        link_archive(&library.link_paths);
    }
    // The tests of the layout read the header.
    let includes: Vec<_> = library.include_paths.iter().map(|it| it.display().to_string()).collect();
    println!("cargo:include={}", includes.join(":"));
    println!("cargo:rustc-env=ZERMUITA_INCLUDES={}", includes.join(":"));
}

/// Links the archive, also where a shared object is in the same folder.
fn link_archive(folders: &[std::path::PathBuf]) {
    let has_archive = |folder: &&std::path::PathBuf| folder.join(format!("lib{NAME}.a")).exists();
    match folders.iter().find(has_archive) {
        Some(folder) => {
            let folder: &Path = folder;
            println!("cargo:rustc-link-search=native={}", folder.display());
        }
        None => println!("cargo:warning=the linker looks for lib{NAME}.a in the system's folders"),
    }
    println!("cargo:rustc-link-lib=static={NAME}");
}
