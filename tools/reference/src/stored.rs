// The stored data files, for tests of their bounds and of what is in them. That they are what is
// generated is compared by tools/check-reference.
//     text        a stored file
//     numbers     the numbers of a line

use std::path::PathBuf;

pub fn text(file: &str) -> String {
    let root = PathBuf::from(env!("CARGO_MANIFEST_DIR")).join("../../crates");
    std::fs::read_to_string(root.join(file)).expect("a stored file")
}

pub fn numbers(line: &str) -> Vec<u64> {
    line.split(' ').filter_map(|word| word.parse().ok()).collect()
}
