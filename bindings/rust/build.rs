//! Links libvezhnake.a: that of the folder VEZHNAKE_LIB_DIR, of `lib/TARGET` in this package, or of the repository's `dist/`.
use std::path::{Path, PathBuf};
use std::process::{Command, Stdio};
use std::{env, fs};

/// Unpacks a file by `xz`, or by Python where there is no `xz`.
fn unpack(packed: &Path, to: &Path) -> bool {
    let python =
        "import lzma, shutil, sys; shutil.copyfileobj(lzma.open(sys.argv[1]), sys.stdout.buffer)";
    let commands: [(&str, &[&str]); 2] = [("xz", &["-dc"]), ("python3", &["-c", python])];
    commands.iter().any(|(program, words)| {
        let Ok(file) = fs::File::create(to) else {
            return false;
        };
        let ran = Command::new(program)
            .args(*words)
            .arg(packed)
            .stdout(file)
            .stderr(Stdio::null())
            .status();
        ran.is_ok_and(|it| it.success())
    })
}

fn main() {
    println!("cargo:rerun-if-env-changed=VEZHNAKE_LIB_DIR");
    println!("cargo:rerun-if-changed=build.rs");
    let target = env::var("TARGET").unwrap();
    let here = PathBuf::from(env::var_os("CARGO_MANIFEST_DIR").unwrap());
    let made = PathBuf::from(env::var_os("OUT_DIR").unwrap());
    let named = env::var_os("VEZHNAKE_LIB_DIR").map(PathBuf::from);
    let own = here.join("lib").join(&target);
    let processor = target.split('-').next().unwrap();
    let packed = here.join(format!("../../dist/libvezhnake-{processor}.a.xz"));
    let folder = match named {
        Some(folder) => folder,
        None if own.join("libvezhnake.a").exists() => own,
        None if target.contains("linux") && packed.exists() => {
            println!("cargo:rerun-if-changed={}", packed.display());
            assert!(unpack(&packed, &made.join("libvezhnake.a")), "{} can't be unpacked: that needs xz or python3", packed.display());
            made
        }
        None => panic!("there is no libvezhnake.a for {target}: set VEZHNAKE_LIB_DIR to the folder that has it"),
    };
    assert!(
        folder.join("libvezhnake.a").exists(),
        "{} has no libvezhnake.a",
        folder.display()
    );
    println!("cargo:rustc-link-search=native={}", folder.display());
    println!("cargo:rustc-link-lib=static=vezhnake");
}
