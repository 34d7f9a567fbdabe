//! Builds Penne's own text into the oracle.
//!
//! value_type.rs is taken whole. The listed items are cut out of typer.rs by their first line, up to
//! their matching brace. Nothing of either is edited, with one exception: in `autoderef` the token
//! MAX_NUM_AUTODEREF_STEPS, whose value the rules make an argument, becomes the call
//! `crate::original::prelude::rounds()`.

use std::fmt::Write;
use std::path::Path;
use std::{env, fs};

const SOURCES: [(&str, &str); 3] = [
    (
        "LICENSE.txt",
        "dd3edfe5d8da1982ae39bd971dba54dd6a969fcadb7898fbccc3fb02c8e669a5",
    ),
    (
        "typer.rs",
        "9ee84f38eeb8f7a7a16b1cf7be477479bd17d86a7a28d8bdad2ce72d5f8453f3",
    ),
    (
        "value_type.rs",
        "2b841d8494e1d12ea752050eb088c7e249cdb9c85750307e54c32914d6992250",
    ),
];

/// What is cut out of typer.rs, with the block that it stood in.
const CUTS: [(&str, &[&str]); 4] = [
    (
        "",
        &[
            "#[derive(Default)]\npub struct Typer\n",
            "#[derive(Debug)]\nstruct Symbol\n",
            "struct Function\n",
            "struct Structure\n",
            "fn do_update_symbol(",
        ],
    ),
    (
        "impl Typer",
        &[
            "\tfn put_symbol(",
            "\tfn poison_symbol(",
            "\tfn forward_declare_symbol(",
            "\tfn get_symbol(",
        ],
    ),
    ("impl Reference", &["\tfn autoderef("]),
    (
        "",
        &[
            "fn build_type_of_reference(",
            "fn build_type_of_ref1(",
            "enum FixContext\n",
            "fn fix_type_for_flags(",
            "fn externalize_type(",
        ],
    ),
];

const LIMIT: &str = "MAX_NUM_AUTODEREF_STEPS";
const GETTER: &str = "crate::original::prelude::rounds()";

fn main() {
    let home = env::var("CARGO_MANIFEST_DIR").unwrap();
    let penne = Path::new(&home).join("penne");
    for (name, digest) in SOURCES {
        let path = penne.join(name);
        println!("cargo:rerun-if-changed={}", path.display());
        let bytes = fs::read(&path).unwrap_or_else(|e| panic!("penne/{name}: {e}"));
        let found = sha256(&bytes);
        assert!(
            found == digest,
            "penne/{name} is not the published text: its SHA-256 is {found}"
        );
    }
    println!("cargo:rerun-if-changed=build.rs");

    // The wrappers stand in a child module, since private items are visible there.
    let inside = |name: &str| format!("{home}/src/original/inside/{name}.rs");
    let value_type = fs::read_to_string(penne.join("value_type.rs")).unwrap();
    let typer = cut_all(&fs::read_to_string(penne.join("typer.rs")).unwrap());
    let text = format!(
        "#[allow(dead_code, unused, clippy::all)]\n\
         pub mod value_type {{\n{value_type}\n\
         #[path = {:?}] pub mod ask;\n}}\n\
         #[allow(dead_code, unused, clippy::all)]\n\
         pub mod typer {{\nuse crate::original::prelude::*;\n{typer}\n\
         #[path = {:?}] pub mod ask;\n\
         #[path = {:?}] pub mod timed;\n}}\n",
        inside("value_type"),
        inside("typer"),
        inside("timed"),
    );
    let out = env::var("OUT_DIR").unwrap();
    fs::write(Path::new(&out).join("penne.rs"), text).unwrap();

    link();
}

/// Links the proved library where TRESTLEJAY_LIB names the folder of its archive.
fn link() {
    println!("cargo:rustc-check-cfg=cfg(face)");
    println!("cargo:rerun-if-env-changed=TRESTLEJAY_LIB");
    if let Ok(folder) = env::var("TRESTLEJAY_LIB") {
        let archive = Path::new(&folder).join("libtrestlejay.a");
        assert!(
            archive.exists(),
            "TRESTLEJAY_LIB names a folder without libtrestlejay.a"
        );
        println!("cargo:rerun-if-changed={}", archive.display());
        println!("cargo:rustc-link-search=native={folder}");
        println!("cargo:rustc-link-lib=static=trestlejay");
        println!("cargo:rustc-cfg=face");
    }
}

fn cut_all(text: &str) -> String {
    let mut all = String::new();
    for (block, items) in CUTS {
        let mut part = String::new();
        for first in items {
            part.push_str(&cut(text, first));
            part.push_str("\n\n");
        }
        if block.is_empty() {
            all.push_str(&part);
        } else {
            assert!(
                text.contains(&format!("\n{block}\n{{\n")),
                "no block {block}"
            );
            write!(all, "{block}\n{{\n{part}}}\n\n").unwrap();
        }
    }
    all
}

/// The item that begins with these words, up to the brace that closes it.
fn cut(text: &str, first: &str) -> String {
    let found: Vec<usize> = text
        .match_indices(&format!("\n{first}"))
        .map(|(at, _)| at + 1)
        .collect();
    assert!(found.len() == 1, "{first:?} stands {} times", found.len());
    let item = &text[found[0]..];
    let end = closing(item);
    let indent: String = first.chars().take_while(|c| *c == '\t').collect();
    assert!(
        item[..end].ends_with(&format!("\n{indent}}}")) && item[end..].starts_with('\n'),
        "{first:?} ends in an odd place"
    );
    let item = &item[..end];
    if first.ends_with("fn autoderef(") {
        assert!(item.matches(LIMIT).count() == 1);
        item.replace(LIMIT, GETTER)
    } else {
        assert!(!item.contains(LIMIT));
        item.to_string()
    }
}

/// Just past the brace that closes the first one opened; strings and comments are passed over.
fn closing(text: &str) -> usize {
    let bytes = text.as_bytes();
    let (mut depth, mut at) = (0, 0);
    while at < bytes.len() {
        match bytes[at] {
            b'/' if bytes[at + 1] == b'/' => {
                while bytes[at] != b'\n' {
                    at += 1;
                }
            }
            b'"' => {
                at += 1;
                while bytes[at] != b'"' {
                    at += if bytes[at] == b'\\' { 2 } else { 1 };
                }
            }
            b'\'' => panic!("a character or a lifetime: teach the cutter to pass over it"),
            b'{' => depth += 1,
            b'}' if depth == 1 => return at + 1,
            b'}' => depth -= 1,
            _ => (),
        }
        at += 1;
    }
    panic!("no closing brace");
}

fn sha256(bytes: &[u8]) -> String {
    let primes: Vec<u64> = (2u64..312)
        .filter(|n| (2..*n).all(|d| n % d != 0))
        .collect();
    // The first 32 bits of the fractional part of a root of n, by whole numbers alone.
    let fraction = |n: u64, power: u32| -> u32 {
        let scaled = u128::from(n) << (32 * power);
        let (mut low, mut high) = (0u128, 1u128 << 40);
        while high - low > 1 {
            let middle = (low + high) / 2;
            if middle.pow(power) <= scaled {
                low = middle;
            } else {
                high = middle;
            }
        }
        low as u32
    };
    let round: Vec<u32> = primes[..64].iter().map(|n| fraction(*n, 3)).collect();
    let mut state: Vec<u32> = primes[..8].iter().map(|n| fraction(*n, 2)).collect();

    let mut padded = bytes.to_vec();
    padded.push(0x80);
    while padded.len() % 64 != 56 {
        padded.push(0);
    }
    padded.extend((8 * bytes.len() as u64).to_be_bytes());

    for block in padded.chunks(64) {
        let mut w: Vec<u32> = block
            .chunks(4)
            .map(|c| u32::from_be_bytes([c[0], c[1], c[2], c[3]]))
            .collect();
        for i in 16..64 {
            let (a, b) = (w[i - 15], w[i - 2]);
            let s0 = a.rotate_right(7) ^ a.rotate_right(18) ^ (a >> 3);
            let s1 = b.rotate_right(17) ^ b.rotate_right(19) ^ (b >> 10);
            w.push(
                w[i - 16]
                    .wrapping_add(s0)
                    .wrapping_add(w[i - 7])
                    .wrapping_add(s1),
            );
        }
        let mut s = state.clone();
        for i in 0..64 {
            let s1 = s[4].rotate_right(6) ^ s[4].rotate_right(11) ^ s[4].rotate_right(25);
            let choice = (s[4] & s[5]) ^ (!s[4] & s[6]);
            let t1 = s[7]
                .wrapping_add(s1)
                .wrapping_add(choice)
                .wrapping_add(round[i])
                .wrapping_add(w[i]);
            let s0 = s[0].rotate_right(2) ^ s[0].rotate_right(13) ^ s[0].rotate_right(22);
            let majority = (s[0] & s[1]) ^ (s[0] & s[2]) ^ (s[1] & s[2]);
            s.rotate_right(1);
            s[4] = s[4].wrapping_add(t1);
            s[0] = t1.wrapping_add(s0).wrapping_add(majority);
        }
        for (sum, part) in state.iter_mut().zip(&s) {
            *sum = sum.wrapping_add(*part);
        }
    }
    state.iter().map(|word| format!("{word:08x}")).collect()
}
