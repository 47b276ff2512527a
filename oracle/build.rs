//! Cuts the original Rust out of its files into OUT_DIR, and links our static library if it is there.
//!
//! REVC_SRC names the folder that holds revc's `src/`; PICMAN_FFI_DIR the one that holds `libpicman_ffi.a`, by default where
//! `rt lib` in crates/picman_ffi writes it.

use std::path::{Path, PathBuf};
use std::{env, fs};

/// The items cut from each file, by how they begin after `pub`. `picman.rs` is taken whole.
const DEF: &[&str] = &[
    "fn evc_assert_rv(",
    "type pel ",
    "const N_C:",
    "const REFP_0:",
    "const REFP_1:",
    "const REFP_NUM:",
    "const MV_D:",
    "const MIN_CU_LOG2:",
    "const EXTRA_FRAME:",
    "const DRA_FRAME:",
    "const MAX_PB_SIZE:",
    "const NUM_CPB:",
    "struct EvcHrd {",
    "struct EvcVui {",
    "struct EvcSps {",
    "struct EvcPoc {",
];
const API: &[&str] = &[
    "enum EvcError {",
    "enum SliceType {",
    "impl From<u8> for SliceType {",
    "const MAX_NUM_REF_PICS:",
    "const MAX_NUM_ACTIVE_REF_FRAME:",
    "const MAX_QP_TABLE_SIZE:",
    "struct EvcChromaTable {",
    "static default_qp_talbe:",
    "impl Default for EvcChromaTable {",
    "enum ChromaSampling {",
];
const ENC: &[&str] = &[
    "const PIC_IDX_ORIG:",
    "const FRM_DEPTH_0:",
    "const FRM_DEPTH_1:",
    "const FRM_DEPTH_2:",
    "const FRM_DEPTH_3:",
    "const FRM_DEPTH_4:",
    "const FRM_DEPTH_5:",
];
const UTIL: &[&str] = &["fn evc_poc_derivation("];
const TBL: &[&str] = &["static tbl_slice_depth:", "static tbl_slice_depth_P:"];

fn main() {
    let root = PathBuf::from(env::var("CARGO_MANIFEST_DIR").unwrap()).join("..");
    let revc = folder("REVC_SRC", root.join("../shared/docs/src")).join("src");
    let out = PathBuf::from(env::var("OUT_DIR").unwrap());

    fs::write(out.join("picman.rs"), read(&revc, "picman.rs")).unwrap();
    fs::write(out.join("util.rs"), cut_all(&revc, "util.rs", UTIL)).unwrap();
    fs::write(out.join("tbl.rs"), cut_all(&revc, "enc/tbl.rs", TBL)).unwrap();
    fs::write(out.join("def.rs"), cut_all(&revc, "def.rs", DEF)).unwrap();
    fs::write(out.join("enc.rs"), cut_all(&revc, "enc/mod.rs", ENC)).unwrap();
    let gop = cut_method(&read(&revc, "enc/mod.rs"), "fn decide_normal_gop(");
    fs::write(out.join("gop.rs"), format!("impl EvceCtx {{\n{gop}}}\n")).unwrap();
    let api = without_foreign_derives(&cut_all(&revc, "api/mod.rs", API));
    fs::write(out.join("api.rs"), api).unwrap();

    link_ours(&folder("PICMAN_FFI_DIR", root.join("crates/picman_ffi/out")));
}

fn folder(variable: &str, default: PathBuf) -> PathBuf {
    println!("cargo:rerun-if-env-changed={variable}");
    env::var_os(variable).map_or(default, PathBuf::from)
}

fn read(revc: &Path, file: &str) -> String {
    let path = revc.join(file);
    println!("cargo:rerun-if-changed={}", path.display());
    match fs::read_to_string(&path) {
        Ok(text) => text,
        Err(why) => panic!("{}: {why}; REVC_SRC names the folder with revc's src/", path.display()),
    }
}

fn cut_all(revc: &Path, file: &str, heads: &[&str]) -> String {
    let text = read(revc, file);
    heads.iter().map(|head| cut(&text, file, head)).collect()
}

/// One item with its attributes. The files are formatted, so an item ends on its own line or with a line
/// that closes it in the first column.
fn cut(text: &str, file: &str, head: &str) -> String {
    let lines: Vec<&str> = text.lines().collect();
    let heads: Vec<usize> = (0..lines.len()).filter(|&i| without_visibility(lines[i]).starts_with(head)).collect();
    let [at] = heads[..] else {
        panic!("{file} has {} items that begin with {head:?}", heads.len());
    };
    let attributes = lines[..at].iter().rev().take_while(|line| line.starts_with("#[")).count();
    let last = if ends_here(lines[at]) {
        at
    } else {
        at + lines[at..].iter().position(|line| *line == "}" || *line == "];").unwrap()
    };
    lines[at - attributes..=last].join("\n") + "\n\n"
}

/// One method of an `impl`, which ends with a line that closes it at its own depth.
fn cut_method(text: &str, head: &str) -> String {
    let lines: Vec<&str> = text.lines().collect();
    let at = lines.iter().position(|line| line.trim_start().starts_with(head)).expect(head);
    let last = at + lines[at..].iter().position(|line| *line == "    }").unwrap();
    lines[at..=last].join("\n") + "\n"
}

fn without_visibility(line: &str) -> &str {
    let line = line.strip_prefix("pub(crate) ").unwrap_or(line);
    line.strip_prefix("pub ").unwrap_or(line)
}

fn ends_here(line: &str) -> bool {
    line.split("/*").next().unwrap().trim_end().ends_with(';')
}

/// The enums derive traits of crates that are not here; the parts we compile need none of them.
fn without_foreign_derives(text: &str) -> String {
    let mut out = text.to_string();
    for word in ["FromPrimitive, ", "ToPrimitive, ", ", FromPrimitive"] {
        out = out.replace(word, "");
    }
    out
}

/// `linked` tells the code that the C functions are there.
fn link_ours(folder: &Path) {
    println!("cargo::rustc-check-cfg=cfg(linked)");
    let archive = folder.join("libpicman_ffi.a");
    println!("cargo:rerun-if-changed={}", archive.display());
    if archive.is_file() {
        println!("cargo:rustc-link-search=native={}", folder.display());
        println!("cargo:rustc-link-lib=static=picman_ffi");
        println!("cargo:rustc-cfg=linked");
    }
}
