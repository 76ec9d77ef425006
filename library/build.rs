//! Builds the library for the crate: its assembler text in compiled/, for the system that is built for, and about.c, by
//! the C compiler. CC and AR name other tools than cc and ar.
use std::env;
use std::path::Path;
use std::process::Command;

/// The text and, when another system than this is built for, how the names of GNU's tools begin.
fn system() -> (&'static str, &'static str) {
    let told = |name: &str| env::var(format!("CARGO_CFG_TARGET_{name}")).unwrap_or_default();
    match (told("ARCH").as_str(), told("OS").as_str(), told("ENV").as_str()) {
        ("x86_64", "linux", "gnu") => ("x86_64-unknown-linux-gnu", "x86_64-linux-gnu-"),
        ("aarch64", "linux", "gnu") => ("aarch64-unknown-linux-gnu", "aarch64-linux-gnu-"),
        ("riscv64", "linux", "gnu") => ("riscv64-unknown-linux-gnu", "riscv64-linux-gnu-"),
        ("x86_64", "windows", "gnu") => ("x86_64-w64-windows-gnu", "x86_64-w64-mingw32-"),
        other => panic!("compiled/ has no text for {other:?}"),
    }
}

fn run(command: &mut Command) {
    let status = command.status().unwrap_or_else(|why| panic!("{command:?}: {why}"));
    assert!(status.success(), "{command:?}: {status}");
}

fn main() {
    let (triple, tools) = system();
    let is_own = env::var("HOST") == env::var("TARGET");
    let tool = |variable: &str, own: &str, other: &str| {
        let usual = if is_own { own.to_string() } else { format!("{tools}{other}") };
        env::var(variable).unwrap_or(usual)
    };
    let (compiler, archiver) = (tool("CC", "cc", "gcc"), tool("AR", "ar", "ar"));
    let out = env::var("OUT_DIR").expect("cargo sets OUT_DIR");
    let [text, about] = ["ecc200.o", "about.o"].map(|name| Path::new(&out).join(name));
    let source = format!("compiled/{triple}.s");
    run(Command::new(&compiler).args(["-c", &source, "-o"]).arg(&text));
    run(Command::new(&compiler).args(["-std=c11", "-O2", "-fPIC", "-c", "library/about.c", "-o"]).arg(&about));
    run(Command::new(archiver).arg("rcs").arg(Path::new(&out).join("libecc200.a")).args([&text, &about]));
    println!("cargo:rustc-link-search=native={out}");
    println!("cargo:rustc-link-lib=static=ecc200");
    for file in [&source, "library/about.c", "library/ecc200.h"] {
        println!("cargo:rerun-if-changed={file}");
    }
}
