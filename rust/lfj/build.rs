//! Links the static libraries: `liblfj.a`, and the dispatcher's `liblfj_dispatch.a`. Their folder:
//! the environment variable LFJ_LIB_DIR, an absolute path, else `target/staticlib` of the
//! repository, where `sh scripts/static-library.sh` puts them.

use std::env;
use std::path::PathBuf;

/// The libraries' names; each has the exported functions of the crate NAME_c.
const LIBRARIES: [&str; 2] = ["lfj", "lfj_dispatch"];

/// Ends the build with these lines.
fn fail(lines: &[String]) -> ! {
    for line in lines {
        eprintln!("{line}");
    }
    std::process::exit(1);
}

/// The folder of the libraries.
fn folder() -> PathBuf {
    let Some(folder) = env::var_os("LFJ_LIB_DIR").map(PathBuf::from) else {
        let here = env::var_os("CARGO_MANIFEST_DIR").expect("cargo sets it");
        return PathBuf::from(here).join("../../target/staticlib");
    };
    // Cargo runs this in the package's folder, not in the one in which cargo was called.
    if folder.is_relative() {
        let folder = folder.display();
        fail(&[
            format!("LFJ_LIB_DIR is {folder}, a relative path, and cargo does not say from where."),
            format!("Write an absolute one, as LFJ_LIB_DIR=\"$PWD/{folder}\" does."),
        ]);
    }
    folder
}

fn main() {
    println!("cargo:rerun-if-env-changed=LFJ_LIB_DIR");
    let folder = folder();
    for name in LIBRARIES {
        let library = folder.join(format!("lib{name}.a"));
        println!("cargo:rerun-if-changed={}", library.display());
        println!("cargo:rustc-link-lib=static:-bundle={name}");
        if !library.is_file() {
            fail(&[
                format!("{} is not there.", library.display()),
                "Make it with `sh scripts/static-library.sh` in the repository's root, or let the".into(),
                "environment variable LFJ_LIB_DIR name the folder that has liblfj.a and".into(),
                "liblfj_dispatch.a.".to_string(),
            ]);
        }
    }
    let folder = folder.canonicalize().expect("the folder has just been read");
    println!("cargo:rustc-link-search=native={}", folder.display());
}
