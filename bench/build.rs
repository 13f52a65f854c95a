//! Compiles the yardstick and the measures in C, and links them.

use std::env;
use std::path::PathBuf;
use std::process::Command;

const FLAGS: [&str; 7] =
    ["-std=c11", "-O2", "-Wall", "-Wextra", "-Werror", "-pedantic", "-I../include"];

fn main() {
    let out = PathBuf::from(env::var("OUT_DIR").unwrap());
    for name in ["lean", "stack"] {
        let (source, object) = (format!("{name}.c"), out.join(format!("{name}.o")));
        let cc = Command::new("cc").args(FLAGS).args(["-c", &source, "-o"]).arg(&object).status();
        assert!(cc.unwrap().success(), "cc refuses {source}");
        println!("cargo:rustc-link-arg={}", object.display());
        println!("cargo:rerun-if-changed={source}");
    }
    println!("cargo:rerun-if-changed=lean.h");
    println!("cargo:rerun-if-changed=stack.h");
    println!("cargo:rerun-if-changed=../include/cungkalisa.h");
}
