// What a test program prints of a data file when each case comes out as its group says.
//     head, group     the line that opens a group
//     printed         a line for each group, and `ok`; or the first line that is no case
//     summary         the same of the tables' file
// `# group NAME` opens a group whose stored answers are right: `NAME CASES`. `# wrong NAME` opens
// one whose stored answers are wrong on purpose: `NAME CASES of CASES wrong, first 1`.

use std::fmt::Write;

pub fn head(name: &str, wrong: bool) -> String {
    format!("# {} {name}\n", if wrong { "wrong" } else { "group" })
}

// The name of the group that a line opens, and whether it is wrong on purpose.
pub fn group(line: &str) -> Option<(&str, bool)> {
    let right = line.strip_prefix("# group ").map(|name| (name, false));
    right.or_else(|| line.strip_prefix("# wrong ").map(|name| (name, true)))
}

// `case_of` says whether a line is a case or only a part of one; none if it is neither.
pub fn printed(text: &str, case_of: fn(&str) -> Option<bool>) -> Result<String, String> {
    let mut groups: Vec<(&str, bool, usize)> = Vec::new();
    for (i, line) in text.lines().enumerate() {
        if let Some((name, wrong)) = group(line) {
            groups.push((name, wrong, 0));
        } else if !line.starts_with('#') {
            let Some((_, _, cases)) = groups.last_mut() else {
                return Err(format!("line {}: before the first group", i + 1));
            };
            let Some(is_case) = case_of(line) else {
                return Err(format!("line {}: neither a case nor a part of one", i + 1));
            };
            *cases += is_case as usize;
        }
    }
    if groups.is_empty() {
        return Err("there is no group".to_string());
    }
    let mut printed = String::new();
    for (name, wrong, cases) in groups {
        match wrong && cases > 0 {
            true => writeln!(printed, "{name} {cases} of {cases} wrong, first 1"),
            false => writeln!(printed, "{name} {cases}"),
        }
        .expect("a string takes any text");
    }
    Ok(printed + "ok\n")
}

pub fn summary(text: &str) -> Result<String, String> {
    printed(text, case_of)
}

// `r OUTLEN WORKLEN : .. = NUMBER PLACE OUTPUT WORK`, the same with `w`, or
// `c : .. = NUMBER PLACE WORK`.
fn case_of(line: &str) -> Option<bool> {
    let (before, answer) = line.split_once(" =")?;
    let (head, input) = before.split_once(" :")?;
    let head: Vec<&str> = head.split(' ').collect();
    let fields = match head.as_slice() {
        ["r" | "w", out_len, work_len] if is_number(out_len) && is_number(work_len) => 4,
        ["c"] => 3,
        _ => return None,
    };
    let input = spaced(input)?.iter().all(|word| word.parse::<u16>().is_ok());
    (input && spaced(answer)?.len() == fields).then_some(true)
}

// Numbers, each with one space before it.
pub fn spaced(text: &str) -> Option<Vec<&str>> {
    let mut words = text.split(' ');
    words.next().filter(|word| word.is_empty())?;
    let words: Vec<&str> = words.collect();
    words.iter().all(|word| is_number(word)).then_some(words)
}

fn is_number(word: &str) -> bool {
    word.bytes().all(|b| b.is_ascii_digit()) && word.parse::<u64>().is_ok()
}

#[cfg(test)]
mod tests {
    use super::summary;

    #[test]
    fn groups_are_counted() {
        let text = "# head\n# group a\nr 1 2 : = 3 0 5 1\nc : 5 = 0 1 2\n# a remark\n# group b\n\
                    # wrong c\nc : 5 = 0 2 2\n";
        assert_eq!(summary(text), Ok("a 2\nb 0\nc 1 of 1 wrong, first 1\nok\n".to_string()));
    }

    #[test]
    fn other_lines_are_refused() {
        for line in [
            "",
            "x : = 3 0 1",
            "r 1 : = 3 0 5 1",
            "r 1 2 : = 3 0 1",
            "c 1 : = 3 0 1",
            "c : 1 = 3 0",
            "c : 1 = 3 0 5 1",
            "c : 65536 = 3 0 1",
            "c :  = 3 0 1",
            "c : = 3 0 1 ",
        ] {
            assert!(summary(&format!("# group a\n{line}\n")).is_err(), "{line}");
        }
        assert!(summary("c : = 3 0 1\n# group a\n").is_err());
        assert!(summary("# head\n").is_err());
    }
}
