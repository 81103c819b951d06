//! The suite from C: tests/host_suite.c, compiled against the header and the static library.

use std::path::{Path, PathBuf};
use std::process::Command;

/// Beside the test lies the library that cargo has built for it: the newest one.
fn library() -> PathBuf {
    let test = std::env::current_exe().unwrap();
    let beside = std::fs::read_dir(test.parent().unwrap()).unwrap().map(|entry| entry.unwrap().path());
    let is_library = |path: &PathBuf| {
        let name = path.file_name().unwrap().to_string_lossy();
        name.starts_with("libplant") && name.ends_with(".a")
    };
    let built = |path: &PathBuf| std::fs::metadata(path).unwrap().modified().unwrap();
    beside.filter(is_library).max_by_key(built).expect("cargo builds the static library")
}

#[test]
fn a_store_and_a_transport_in_c() {
    let package = Path::new(env!("CARGO_MANIFEST_DIR"));
    for (compiler, options) in [("gcc", &["-std=c99"][..]), ("g++", &["-std=c++14", "-x", "c++"])] {
        if Command::new(compiler).arg("--version").output().is_err() {
            eprintln!("{compiler} is not here, not tried");
            continue;
        }
        let program = std::env::temp_dir().join(format!("plant-suite-{compiler}-{}", std::process::id()));
        let built = Command::new(compiler)
            .args(options)
            .args(["-O1", "-Wall", "-Wextra", "-Werror", "-pedantic", "-I"])
            .arg(package.join("include"))
            .arg(package.join("tests/host_suite.c"))
            .args(["-x", "none"])
            .arg(library())
            .args(["-lpthread", "-ldl", "-lm", "-o"])
            .arg(&program)
            .output()
            .unwrap();
        assert!(built.status.success(), "{}", String::from_utf8_lossy(&built.stderr));
        let said = Command::new(&program).output().unwrap();
        std::fs::remove_file(&program).unwrap();
        assert_eq!(
            String::from_utf8_lossy(&said.stdout),
            "right: 0\n\
             state alone: found\n\
             the state came back with another table\n\
             unchecked: found\n\
             a message was taken in without checking it\n"
        );
    }
}
