// What the test program prints of a file of histories when each call comes out as its group says.
//     summary     a line `NAME CALLS` for each group, and `ok`; or the first line that is wrong

use crate::summary::{printed, spaced};

pub fn summary(text: &str) -> Result<String, String> {
    printed(text, kind_of)
}

// Whether the line is a call or a change; none if it is neither.
fn kind_of(line: &str) -> Option<bool> {
    let (letter, rest) = line.split_at_checked(1)?;
    let parts: Vec<Vec<&str>> = rest.split(" =").map(spaced).collect::<Option<_>>()?;
    let lengths: Vec<usize> = parts.iter().map(|part| part.len()).collect();
    match (letter, lengths.as_slice()) {
        ("t" | "u", [_]) | ("a", [3]) | ("r", [5]) | ("x", [(2..)]) => Some(false),
        ("b" | "f", [(1..), 10]) | ("d", [(3..), 11]) | ("o", [1, 6]) | ("v", [0, 2]) => {
            Some(true)
        }
        _ => None,
    }
}

#[cfg(test)]
mod tests {
    use super::summary;

    #[test]
    fn calls_are_counted() {
        let text =
            "# head\n# group a\nt 3 0\na 16 16 1\nb 8192 = 0 0 1 0 1 1 0 0 5 0\nv = 0 16\n\
                    # group b\nt\n# wrong c\nv = 0 32\n";
        assert_eq!(summary(text), Ok("a 2\nb 0\nc 1 of 1 wrong, first 1\nok\n".to_string()));
    }

    #[test]
    fn other_lines_are_refused() {
        for line in [
            "",
            "y 1",
            "s 1 = 0 0 1 0 1 1 0 0 5 0",
            "b 1 = 0",
            "v = 0",
            "x 1",
            "f = 0 0 1 0 1 1 0 0 5 0",
            "d 1 2 = 0 0 1 0 1 1 0 0 5 5 0",
            "t 1  2",
        ] {
            assert!(summary(&format!("# group a\n{line}\n")).is_err(), "{line}");
        }
        assert!(summary("v = 0 0\n# group a\n").is_err());
        assert!(summary("# head\n").is_err());
    }
}
