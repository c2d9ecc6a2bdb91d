//! What the tests share.
#![allow(dead_code)]

use balkreyn_tokio::Notes;
use std::io::Write;
use std::path::{Path, PathBuf};
use std::process::{Command, Stdio};
use std::time::Duration;
use std::{env, fs};

pub const LONG: Duration = Duration::from_secs(3600);

pub fn millis(count: u64) -> Duration {
    Duration::from_millis(count)
}

/// A seeded generator (splitmix64).
pub struct Chance(pub u64);

impl Chance {
    pub fn next(&mut self) -> u64 {
        self.0 = self.0.wrapping_add(0x9e37_79b9_7f4a_7c15);
        let mut mixed = self.0;
        mixed = (mixed ^ (mixed >> 30)).wrapping_mul(0xbf58_476d_1ce4_e5b9);
        mixed = (mixed ^ (mixed >> 27)).wrapping_mul(0x94d0_49bb_1331_11eb);
        mixed ^ (mixed >> 31)
    }

    pub fn below(&mut self, limit: u64) -> u64 {
        self.next() % limit
    }
}

/// Asks the proved program whether the rules answer each line so. Where they don't, the two files stay.
pub struct Judge {
    check: PathBuf,
    folder: PathBuf,
}

impl Judge {
    /// `None` where the program is not at hand.
    pub fn find(name: &str) -> Option<Judge> {
        let top = Path::new(env!("CARGO_MANIFEST_DIR")).join("../../..");
        let program = env::var_os("SCOPECTL").map_or_else(|| top.join("carried/scopectl"), PathBuf::from);
        let check = top.join("bindings/conformance/check");
        if !program.is_file() || !check.is_file() {
            say("left out: what the rules answer, as no scopectl is at hand");
            return None;
        }
        let folder = env::temp_dir().join(format!("balkreyn-tokio-{name}-{}", std::process::id()));
        fs::create_dir_all(&folder).unwrap();
        Some(Judge { check, folder })
    }

    pub fn hears(&self, notes: &Notes) {
        let files = [("journal", &notes.journal), ("answers", &notes.answers)].map(|(name, text)| {
            let file = self.folder.join(name);
            fs::write(&file, text).unwrap();
            file
        });
        let status = Command::new(&self.check).args(files).stdout(Stdio::null()).status().unwrap();
        assert!(status.success(), "the rules answer otherwise: {}", self.folder.display());
    }

    pub fn ends(self) {
        fs::remove_dir_all(self.folder).unwrap();
    }
}

/// Has the proved program judge the notes, where it is at hand.
pub fn judged(name: &str, notes: &Notes) {
    if let Some(judge) = Judge::find(name) {
        judge.hears(notes);
        judge.ends();
    }
}

/// Says it also where the test passes, and its output is captured.
pub fn say(text: &str) {
    let _ = writeln!(std::io::stderr(), "{text}");
}
