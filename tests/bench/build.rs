//! Compiles the peer that uses the Boost Graph Library, where that is installed.

use std::env;
use std::path::PathBuf;
use std::process::Command;

const PEER: &str = "peers/boost.cpp";

fn done(command: &mut Command) -> bool {
    command.status().is_ok_and(|status| status.success())
}

/// Whether there is a C++ compiler that finds the Boost Graph Library.
fn installed() -> bool {
    let mut compiler = Command::new("c++");
    compiler.args(["-x", "c++", "-fsyntax-only", "-include"]);
    compiler.args(["boost/graph/adjacency_list.hpp", "/dev/null"]);
    compiler
        .output()
        .is_ok_and(|output| output.status.success())
}

fn main() {
    println!("cargo:rerun-if-changed={PEER}");
    println!("cargo:rerun-if-changed=/usr/include/boost/graph");
    if !installed() {
        return;
    }
    let out = PathBuf::from(env::var_os("OUT_DIR").expect("cargo gives it"));
    let (object, archive) = (out.join("boost.o"), out.join("libpeer_boost.a"));
    let mut compiler = Command::new("c++");
    compiler.args(["-std=c++14", "-O3", "-DNDEBUG", "-c", PEER, "-o"]);
    assert!(done(compiler.arg(&object)), "{PEER} doesn't compile");
    let mut archiver = Command::new("ar");
    archiver.arg("rcs").arg(&archive).arg(&object);
    assert!(done(&mut archiver), "{PEER}: no archive");
    println!("cargo:rustc-cfg=boost");
    println!("cargo:rustc-link-search=native={}", out.display());
    println!("cargo:rustc-link-lib=static=peer_boost");
    println!("cargo:rustc-link-lib=stdc++");
}
