//! Finds the engine's archive, in this order, and has it linked:
//!
//! 1. the file that the variable `FORGELILAC_ARCHIVE` names;
//! 2. the one that `make install` put where pkg-config finds it, of the version that the package is made for;
//! 3. `crates/host/out/libhost.a` of the tree that this package stands in;
//! 4. where the variable `FORGELILAC_BUILD` is 1 and that file is not there, the same, made by `rt lib` in
//!    crates/host, which proves the library first: it takes minutes. Nothing else starts a proof.
//!
//! Whichever it is, it must have the functions that the package calls, `forgelilac_format_3` among them, which
//! only an archive of that format has; else the build ends and says which are missing. The version is tested
//! when a member is opened or restored (`archive_version`).
//!
//! Where `DOCS_RS` is set, as it is at docs.rs, nothing is looked for: what is documented or checked there
//! need not be linked.

#[path = "src/version.rs"]
mod version;

use std::path::{Path, PathBuf};
use std::process::{exit, Command};
use std::{env, fs};
use version::ENGINE_VERSION;

const VARIABLES: [&str; 6] =
    ["FORGELILAC_ARCHIVE", "FORGELILAC_BUILD", "DOCS_RS", "PKG_CONFIG", "PKG_CONFIG_PATH", "PKG_CONFIG_LIBDIR"];

fn main() {
    for variable in VARIABLES {
        println!("cargo:rerun-if-env-changed={variable}");
    }
    println!("cargo:rerun-if-changed=build.rs");
    println!("cargo:rerun-if-changed=src/version.rs");
    println!("cargo:rerun-if-changed=src/lent.rs");
    if env::var_os("DOCS_RS").is_some() {
        return;
    }
    let archive = named().or_else(installed).unwrap_or_else(in_the_tree);
    println!("cargo:rerun-if-changed={}", archive.display());
    let folder = PathBuf::from(env::var_os("OUT_DIR").expect("cargo sets it"));
    let bytes = fs::read(&archive).unwrap_or_else(|error| {
        let whole = if archive.is_relative() { "; FORGELILAC_ARCHIVE is to have its whole path" } else { "" };
        fail(&format!("the engine's archive {} cannot be read: {error}{whole}", archive.display()))
    });
    test(&archive, &bytes);
    if let Err(error) = fs::write(folder.join("libforgelilac.a"), bytes) {
        fail(&format!("{} cannot be written: {error}", folder.display()));
    }
    println!("cargo:rustc-link-search=native={}", folder.display());
    println!("cargo:rustc-link-lib=static=forgelilac");
}

/// Ends the build with a message, and nothing else in it.
fn fail(message: &str) -> ! {
    eprintln!("{message}");
    exit(1);
}

/// Ends the build where the archive lacks a function that the package calls.
fn test(archive: &Path, bytes: &[u8]) {
    let Some(offered) = index_of(bytes) else {
        fail(&format!("{} is no archive with an index of its functions", archive.display()));
    };
    let missing: Vec<&str> = called().filter(|name| !offered.contains(&name.as_bytes())).collect();
    let Some(first) = missing.first() else {
        return;
    };
    let why = if missing.contains(&FORMAT) {
        format!("it has no {FORMAT}, so it is of another format than this package, or of before 0.15.0")
    } else {
        format!("it has no {first}, so it is of an earlier version")
    };
    fail(&format!(
        "the engine's archive {} is not the one that this package is made for, version {ENGINE_VERSION}: {why}",
        archive.display()
    ));
}

/// What only an archive of the package's format has.
const FORMAT: &str = "forgelilac_format_3";

/// The functions that the package calls: those of the module `abi`.
fn called() -> impl Iterator<Item = &'static str> {
    let declared = include_str!("src/lent.rs").split("pub fn ").skip(1);
    declared.filter_map(|text| text.split('(').next()).filter(|name| name.starts_with("forgelilac_"))
}

/// The names in the index that stands first in an archive: after the magic word a header of 60 bytes with the
/// length in ten of them, then how many names there are, four bytes for each, and the names, each ended by 0.
fn index_of(bytes: &[u8]) -> Option<Vec<&[u8]>> {
    let member = bytes.strip_prefix(b"!<arch>\n")?;
    let (header, rest) = member.split_at_checked(60)?;
    if !header.starts_with(b"/ ") {
        return None;
    }
    let length: usize = std::str::from_utf8(&header[48..58]).ok()?.trim().parse().ok()?;
    let (count, rest) = rest.get(..length)?.split_first_chunk()?;
    let names = rest.get(4 * u32::from_be_bytes(*count) as usize..)?;
    Some(names.split(|&byte| byte == 0).collect())
}

fn named() -> Option<PathBuf> {
    env::var_os("FORGELILAC_ARCHIVE").filter(|path| !path.is_empty()).map(PathBuf::from)
}

fn installed() -> Option<PathBuf> {
    pkg_config(&format!("--exact-version={ENGINE_VERSION}"))?;
    let archive = Path::new(&pkg_config("--variable=libdir")?).join("libforgelilac.a");
    archive.exists().then_some(archive)
}

/// What pkg-config says about the library, where it knows it.
fn pkg_config(asked: &str) -> Option<String> {
    let program = env::var_os("PKG_CONFIG").unwrap_or("pkg-config".into());
    let said = Command::new(program).args([asked, "forgelilac"]).output().ok()?;
    let text = String::from_utf8(said.stdout).ok()?;
    said.status.success().then(|| text.trim().to_owned())
}

fn in_the_tree() -> PathBuf {
    let package = PathBuf::from(env::var_os("CARGO_MANIFEST_DIR").expect("cargo sets it"));
    // Elsewhere there is no such folder.
    let source = package.ancestors().nth(2).unwrap_or(&package).join("crates/host");
    let archive = source.join("out/libhost.a");
    if !archive.exists() && env::var_os("FORGELILAC_BUILD").is_some_and(|value| value == "1") {
        println!(
            "cargo:warning=FORGELILAC_BUILD is 1: proving and building the engine by 'rt lib', which takes minutes"
        );
        match Command::new("rt").arg("lib").current_dir(&source).status() {
            Ok(status) if status.success() => {}
            Ok(status) => fail(&format!("'rt lib' in {}: {status}", source.display())),
            Err(error) => fail(&format!("'rt lib' in {}: {error}", source.display())),
        }
    }
    if archive.exists() {
        return archive;
    }
    let here = if source.exists() {
        format!(
            "\n- make {} by 'rt lib' in crates/host;\n\
             - set FORGELILAC_BUILD=1 to have this build do that: it proves the library first, which takes minutes.",
            archive.display()
        )
    } else {
        String::new()
    };
    fail(&format!(
        "forgelilac: there is no archive of the engine, version {ENGINE_VERSION}. Do one of these:\n\
         - set FORGELILAC_ARCHIVE to the whole path of libhost.a or libforgelilac.a;\n\
         - have pkg-config find an installed one: 'make install' in Forgelilac's repository, PKG_CONFIG_PATH;{here}",
    ))
}
