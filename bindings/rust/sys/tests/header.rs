//! The prototypes are those of the header.

use std::path::Path;

/// The names of the functions with the number of their parameters, of lines that begin them with one of the words.
fn prototypes(text: &str, words: [&str; 3]) -> Vec<(String, usize)> {
    let lines = text.lines().filter(|line| words.iter().any(|word| line.starts_with(word)));
    let mut found: Vec<_> = lines
        .filter_map(|line| {
            let (before, behind) = line.split_once('(')?;
            let parameters = behind.split_once(')')?.0;
            let name = before.rsplit(' ').next()?.to_owned();
            Some((name, if ["", "void"].contains(&parameters) { 0 } else { parameters.split(',').count() }))
        })
        .collect();
    found.sort();
    found
}

#[test]
fn the_prototypes_are_those_of_the_header() {
    let header = Path::new(env!("CARGO_MANIFEST_DIR")).join("../../include/balkreyn.h");
    let header = prototypes(
        &std::fs::read_to_string(header).unwrap(),
        ["BALKREYN_CALL int64_t ", "int64_t balkreyn_", "uint32_t balkreyn_"],
    );
    // Long ones are broken into lines: each is one again.
    let source = include_str!("../src/lib.rs").replace("(\n", "(").replace(",\n    )", ")").replace(",\n", ",");
    assert_eq!(prototypes(&source, ["    pub fn balkreyn_"; 3]), header);
    assert!(header.len() > 30);
}

#[test]
fn the_library_is_of_this_interface() {
    let mut book = balkreyn_sys::Book::empty();
    // SAFETY: the book is the library's, lent to one call at a time.
    unsafe {
        assert_eq!(balkreyn_sys::balkreyn_abi(), balkreyn_sys::ABI);
        assert_eq!(balkreyn_sys::balkreyn_book_open(&mut book, 1, 1, 4), 0);
        assert_eq!(balkreyn_sys::balkreyn_open(&mut book, 0, 0, 0, 0, 0), 1);
        assert_eq!(balkreyn_sys::balkreyn_book_close(&mut book), 0);
    }
}
