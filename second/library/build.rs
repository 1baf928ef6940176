//! Links the library that STATION_DIR has: `libstation.a`.

use std::path::Path;
use std::process::ExitCode;

fn main() -> ExitCode {
    println!("cargo:rerun-if-env-changed=STATION_DIR");
    let Ok(directory) = std::env::var("STATION_DIR") else {
        return fail("STATION_DIR has to be the folder of libstation.a");
    };
    let Ok(file) = Path::new(&directory).join("libstation.a").canonicalize() else {
        return fail(&format!("there is no libstation.a in STATION_DIR, {directory}; give a whole path"));
    };
    println!("cargo:rerun-if-changed={}", file.display());
    println!("cargo:rustc-link-search=native={}", file.with_file_name("").display());
    println!("cargo:rustc-link-lib=static=station");
    ExitCode::SUCCESS
}

fn fail(why: &str) -> ExitCode {
    eprintln!("{why}");
    ExitCode::FAILURE
}
