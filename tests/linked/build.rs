//! Finds the library under test, and makes the host program where the tests reach the library
//! through one.

use std::env;
use std::path::Path;
use std::process::{Command, ExitCode};

/// Where `bash program/staticlib.sh` writes, seen from this package.
const STATICLIB: &str = "../../target/staticlib";
const ARCHIVE: &str = "libreedbiscuit.a";
/// Links a C program with the library.
const BUILD: &str = "../../program/build.sh";

fn main() -> ExitCode {
    match prepare() {
        Ok(()) => ExitCode::SUCCESS,
        Err(why) => {
            println!("cargo::error={why}");
            ExitCode::FAILURE
        }
    }
}

fn prepare() -> Result<(), String> {
    let package = env::var("CARGO_MANIFEST_DIR").map_err(|why| why.to_string())?;
    let folder = Path::new(&package).join(STATICLIB);
    let archive = folder.join(ARCHIVE);
    for watched in [archive.as_path(), Path::new("build.rs"), Path::new("host")] {
        println!("cargo::rerun-if-changed={}", watched.display());
    }
    if !archive.exists() {
        let place = archive.display();
        return Err(format!("no {place}: run 'bash program/staticlib.sh' in the repository first"));
    }
    // The archive has x86-64 code, and the kit's tools make and run no other.
    let links = env::var("CARGO_CFG_TARGET_ARCH").is_ok_and(|arch| arch == "x86_64");
    if links {
        println!("cargo::rustc-link-search=native={}", folder.display());
        println!("cargo::rustc-link-lib=static=reedbiscuit");
    }
    if through_host(links)? {
        make_host(&archive)?;
    }
    Ok(())
}

/// Whether the tests reach the library through the host program: where they must, or are told to.
fn through_host(links: bool) -> Result<bool, String> {
    println!("cargo::rerun-if-env-changed=REED_ENGINE");
    match env::var("REED_ENGINE").as_deref() {
        Err(_) | Ok("") => Ok(!links),
        Ok("host") => Ok(true),
        Ok("linked") if links => Ok(false),
        Ok(other) => Err(format!("REED_ENGINE={other}: it is host, or on x86-64 linked")),
    }
}

/// Makes the host program; the package sees REED_HOST exactly if there is one.
fn make_host(archive: &Path) -> Result<(), String> {
    for watched in ["../../include", BUILD] {
        println!("cargo::rerun-if-changed={watched}");
    }
    let out = env::var("OUT_DIR").map_err(|why| why.to_string())?;
    let made = Command::new("sh").args([BUILD, "host/host.c"]).arg(archive).arg(&out).status();
    if !made.is_ok_and(|status| status.success()) {
        return Err(format!("{BUILD} failed; above is what it said"));
    }
    println!("cargo::rustc-env=REED_HOST={out}/host");
    Ok(())
}
