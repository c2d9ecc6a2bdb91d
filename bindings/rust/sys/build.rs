//! Links the proved archive `libbalkreyn.a`: that of the target in `archive`, whose digest is checked; or the one in the
//! folder that `BALKREYN_ARCHIVE` names, which is linked as it is. Documentation alone (`DOCS_RS`) needs none.

use std::path::{Path, PathBuf};
use std::{env, fs, process};

fn main() {
    println!("cargo:rerun-if-env-changed=BALKREYN_ARCHIVE");
    println!("cargo:rerun-if-env-changed=DOCS_RS");
    println!("cargo:rerun-if-changed=build.rs");
    if env::var_os("DOCS_RS").is_some() {
        return;
    }
    let folder = match env::var_os("BALKREYN_ARCHIVE") {
        Some(named) => PathBuf::from(named),
        None => folder_of_target(),
    };
    let archive = folder.join("libbalkreyn.a");
    if !archive.is_file() {
        fail(&format!("no proved archive at {}", archive.display()));
    }
    println!("cargo:rerun-if-changed={}", archive.display());
    println!("cargo:rustc-link-search=native={}", folder.display());
    println!("cargo:rustc-link-lib=static=balkreyn");
}

fn fail(what: &str) -> ! {
    eprintln!("balkreyn-sys: {what}");
    process::exit(1)
}

/// The folder of the target's archive, whose digest is that of its line.
fn folder_of_target() -> PathBuf {
    let target = env::var("TARGET").unwrap_or_default();
    let all = Path::new(&env::var_os("CARGO_MANIFEST_DIR").unwrap_or_default()).join("archive");
    let folder = all.join(&target);
    if !folder.is_dir() {
        let mut names: Vec<_> =
            fs::read_dir(&all).into_iter().flatten().flatten().map(|entry| entry.file_name()).collect();
        names.sort();
        let names: Vec<_> = names.iter().map(|name| name.to_string_lossy()).collect();
        fail(&format!(
            "the proved library is there for {}, and not for {target}. BALKREYN_ARCHIVE names a folder with a \
             libbalkreyn.a of your own; with DOCS_RS=1 documentation alone is built.",
            names.join(", ")
        ));
    }
    let digest = fs::read_to_string(folder.join("digest")).unwrap_or_default();
    let archive = fs::read(folder.join("libbalkreyn.a")).unwrap_or_default();
    if digest.split_whitespace().next() != Some(&sha256(&archive)) {
        fail(&format!("the archive in {} is not that of its digest", folder.display()));
    }
    folder
}

/// The SHA-256 of the bytes, in hexadecimal digits.
fn sha256(bytes: &[u8]) -> String {
    let primes: Vec<u64> = (2..312).filter(|n| (2..*n).all(|d| n % d != 0)).collect();
    // The first 32 bits behind the point of the cube and the square roots of the first primes.
    let root = |prime: u64, power: u32| -> u32 {
        let (mut low, mut high) = (0u128, 1u128 << 40);
        while high - low > 1 {
            let middle = (low + high) / 2;
            if middle.pow(power) <= u128::from(prime) << (32 * power) { low = middle } else { high = middle }
        }
        low as u32
    };
    let constants: Vec<u32> = primes.iter().map(|prime| root(*prime, 3)).collect();
    let mut state: Vec<u32> = primes[..8].iter().map(|prime| root(*prime, 2)).collect();
    let mut padded = bytes.to_vec();
    padded.push(0x80);
    padded.resize(padded.len().next_multiple_of(64) + if padded.len() % 64 > 56 { 64 } else { 0 }, 0);
    let end = padded.len() - 8;
    padded[end..].copy_from_slice(&(bytes.len() as u64 * 8).to_be_bytes());
    for block in padded.chunks(64) {
        let mut words: Vec<u32> =
            block.chunks(4).map(|four| u32::from_be_bytes([four[0], four[1], four[2], four[3]])).collect();
        for i in 16..64 {
            let (a, b) = (words[i - 15], words[i - 2]);
            let one = a.rotate_right(7) ^ a.rotate_right(18) ^ (a >> 3);
            let two = b.rotate_right(17) ^ b.rotate_right(19) ^ (b >> 10);
            words.push(words[i - 16].wrapping_add(one).wrapping_add(words[i - 7]).wrapping_add(two));
        }
        let mut s = state.clone();
        for (constant, word) in constants.iter().zip(&words) {
            let one = s[4].rotate_right(6) ^ s[4].rotate_right(11) ^ s[4].rotate_right(25);
            let choice = (s[4] & s[5]) ^ (!s[4] & s[6]);
            let first = s[7].wrapping_add(one).wrapping_add(choice).wrapping_add(*constant).wrapping_add(*word);
            let two = s[0].rotate_right(2) ^ s[0].rotate_right(13) ^ s[0].rotate_right(22);
            let majority = (s[0] & s[1]) ^ (s[0] & s[2]) ^ (s[1] & s[2]);
            s.rotate_right(1);
            s[4] = s[4].wrapping_add(first);
            s[0] = first.wrapping_add(two).wrapping_add(majority);
        }
        state.iter_mut().zip(s).for_each(|(old, new)| *old = old.wrapping_add(new));
    }
    state.iter().map(|word| format!("{word:08x}")).collect()
}
