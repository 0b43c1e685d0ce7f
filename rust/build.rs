//! Links the archive, which `c/build` makes: from the folder that `CEFRODIL_LIB` names, else from the folder `native` here, else from
//! the one that pkg-config knows, else from the release beside this crate in Cefrodil's repository.
use std::env;
use std::path::{Path, PathBuf};
use std::process::{exit, Command};

const ARCHIVE: &str = "libcefrodil.a";
const HOW: &str =
    "unpack a release with `c/unpack FOLDER`, or build it with `c/build FOLDER`, and set CEFRODIL_LIB to FOLDER/lib, or PKG_CONFIG_PATH to \
    FOLDER/lib/pkgconfig (if pkg-config looks there already, run `cargo clean -p cefrodil`)";
// Before version 1.0 another minor version may differ in its calls.
const SERIES: &str = concat!(env!("CARGO_PKG_VERSION_MAJOR"), ".", env!("CARGO_PKG_VERSION_MINOR"), ".");

fn main() {
    for name in ["CEFRODIL_LIB", "PKG_CONFIG", "PKG_CONFIG_PATH", "PKG_CONFIG_LIBDIR"] {
        println!("cargo::rerun-if-env-changed={name}");
    }
    let top = PathBuf::from(env::var_os("CARGO_MANIFEST_DIR").expect("cargo sets CARGO_MANIFEST_DIR"));
    let here = top.join("native");
    let folder = if let Some(named) = env::var_os("CEFRODIL_LIB").map(PathBuf::from) {
        if !named.is_absolute() {
            fail(&format!("CEFRODIL_LIB must be an absolute path, and not {}", named.display()));
        }
        if !named.join(ARCHIVE).is_file() {
            fail(&format!("there is no {ARCHIVE} in {}: {HOW}", named.display()));
        }
        named
    } else if here.join(ARCHIVE).is_file() {
        here
    } else {
        known().or_else(|| released(&top)).unwrap_or_else(|| {
            // Without an archive `cargo check` and `cargo doc` work, so this is no error yet.
            println!("cargo::warning=there is no {ARCHIVE} in {}, nor where pkg-config looks: {HOW}", here.display());
            here
        })
    };
    watch(&folder.join(ARCHIVE));
    println!("cargo::rustc-link-search=native={}", folder.display());
    println!("cargo::rustc-link-lib=static=cefrodil");
}

/// Cargo runs this script again if the file changes. A path that is not there would make it do so each time, so only what is there is
/// watched.
fn watch(file: &Path) {
    if file.is_file() {
        println!("cargo::rerun-if-changed={}", file.display());
    }
}

/// Where pkg-config finds the archive of this version, if it does. For another target than this machine's, `PKG_CONFIG` must name that
/// target's.
fn known() -> Option<PathBuf> {
    if env::var_os("TARGET") != env::var_os("HOST") && env::var_os("PKG_CONFIG").is_none() {
        return None;
    }
    let version = answer("--modversion")?;
    if !version.starts_with(SERIES) {
        return None;
    }
    // Some versions of pkg-config put a backslash before a space.
    let folder = PathBuf::from(answer("--variable=libdir")?.replace('\\', ""));
    folder.join(ARCHIVE).is_file().then_some(folder)
}

/// Unpacks the archive of the release for the target, if there is one.
fn released(top: &Path) -> Option<PathBuf> {
    let target = |part: &str| env::var(format!("CARGO_CFG_TARGET_{part}")).ok();
    let name = format!("cefrodil-{}-{}-{}.tar.xz", env!("CARGO_PKG_VERSION"), target("ARCH")?, target("OS")?);
    let packed = top.join("../release").join(name);
    if !packed.is_file() {
        return None;
    }
    watch(&packed);
    let folder = PathBuf::from(env::var_os("OUT_DIR")?);
    let member = format!("./lib/{ARCHIVE}");
    let unpacked = Command::new("tar").arg("-xJf").arg(&packed).arg("-C").arg(&folder).arg(member).status();
    if !unpacked.is_ok_and(|status| status.success()) {
        fail(&format!("cannot unpack {}: tar and xz are needed", packed.display()));
    }
    Some(folder.join("lib"))
}

/// What pkg-config answers, if it is there and knows the library.
fn answer(question: &str) -> Option<String> {
    let program = env::var_os("PKG_CONFIG").unwrap_or_else(|| "pkg-config".into());
    let output = Command::new(program).args([question, "cefrodil"]).output().ok()?;
    let text = String::from_utf8(output.stdout).ok()?;
    output.status.success().then(|| text.trim_end().to_owned())
}

fn fail(why: &str) -> ! {
    eprintln!("{why}");
    exit(1)
}
