//! Finds the archive libfcanon.a: in the folder that `FCANON_LIB` names, or in `build` of the
//! repository, or where pkg-config says that it is installed. Where `FCANON_PORTABLE` names a folder
//! with fcanon-portable.c, or this one has it and no archive is found, the archive is made of that by a
//! C compiler. Where there is neither, the crate is still checked and documented, and a program is not
//! linked. What is found by itself is for this machine, so for another one it is not taken. With the
//! feature `commands` it does so for `libfcanon_runs.a` and fcanon-runs-portable.c too.
use std::env::{var, var_os};
use std::path::{Path, PathBuf};
use std::process::Command;

const NAMES: [&str; 4] = ["FCANON_LIB", "FCANON_PORTABLE", "CC", "AR"];

fn installed() -> Option<PathBuf> {
    let got = Command::new("pkg-config").args(["--variable=libdir", "fcanon"]).output().ok()?;
    let folder = String::from_utf8(got.stdout).ok()?;
    Some(PathBuf::from(folder.trim()))
}

fn run(command: &mut Command) {
    let ended = command.status().unwrap_or_else(|error| panic!("{command:?}: {error}"));
    assert!(ended.success(), "{command:?}: {ended}");
}

/// A tool for the target: that of `CC_aarch64_unknown_linux_gnu` or such, else of `CC`.
fn tool(name: &str) -> Option<String> {
    let target = var("TARGET").expect("cargo names the target").replace('-', "_");
    println!("cargo:rerun-if-env-changed={name}_{target}");
    var(format!("{name}_{target}")).or_else(|_| var(name)).ok()
}

/// The libraries that are linked, each with the file of C that has it.
fn libraries() -> &'static [(&'static str, &'static str)] {
    let all = &[("fcanon", "fcanon-portable.c"), ("fcanon_runs", "fcanon-runs-portable.c")];
    &all[..=usize::from(var_os("CARGO_FEATURE_COMMANDS").is_some())]
}

/// Makes the archive of a library as one file of C. Beside a compiler `NAME-gcc` is `NAME-ar`.
fn compile(name: &str, source: &Path, made: &Path) {
    println!("cargo:rerun-if-changed={}", source.display());
    let object = made.join(name).with_extension("o");
    let compiler = tool("CC").unwrap_or_else(|| "cc".to_string());
    let beside = compiler.strip_suffix("gcc").unwrap_or_default().to_string() + "ar";
    let mut words = Command::new(compiler);
    run(words.args(["-std=c11", "-O2", "-fPIC", "-c"]).arg(source).arg("-o").arg(&object));
    let archiver = tool("AR").unwrap_or(beside);
    run(Command::new(archiver).arg("crs").arg(made.join(format!("lib{name}.a"))).arg(object));
}

/// The folder of the archives that are made of files of C in this one.
fn compiled(folder: &Path) -> PathBuf {
    let made = PathBuf::from(var_os("OUT_DIR").expect("cargo names the folder"));
    for (name, file) in libraries() {
        compile(name, &folder.join(file), &made);
    }
    made
}

/// The folder with the archive, if there is one.
fn found() -> Option<PathBuf> {
    let own = Path::new(env!("CARGO_MANIFEST_DIR"));
    let has_archive = |folder: &PathBuf| folder.join("libfcanon.a").exists();
    if let Some(folder) = var_os("FCANON_LIB").map(PathBuf::from).filter(has_archive) {
        return Some(folder);
    }
    if let Some(folder) = var_os("FCANON_PORTABLE") {
        return Some(compiled(Path::new(&folder)));
    }
    let is_for_this_machine = var_os("HOST") == var_os("TARGET");
    let places = [Some(own.join("../../../build")), installed()];
    let there = places.into_iter().flatten().filter(|_| is_for_this_machine).find(has_archive);
    there.or_else(|| own.join("fcanon-portable.c").exists().then(|| compiled(own)))
}

fn main() {
    for name in NAMES {
        println!("cargo:rerun-if-env-changed={name}");
    }
    match found() {
        Some(folder) => {
            println!("cargo:rustc-link-search=native={}", folder.display());
            for (name, _) in libraries() {
                println!("cargo:rerun-if-changed={}/lib{name}.a", folder.display());
                println!("cargo:rustc-link-lib=static={name}");
            }
        }
        None => println!(
            "cargo:warning=libfcanon.a is not found: name its folder in FCANON_LIB, or install it \
             for pkg-config, or name in FCANON_PORTABLE the folder of fcanon-portable.c"
        ),
    }
}
