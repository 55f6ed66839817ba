// The command line of the reference: judge a file of table bytes, of the program's input or of a lot
// book, write test data, or say what the test programs print of it.

use reference::operations::table_of_bytes;
use reference::refusal::{word, Refusal};
use reference::sheet::print::Outcome;
use std::io::Write;
use std::process::ExitCode;

const HELP: &str = "\
reference: another implementation of the CSP_E line monitor, for test answers

    reference check FILE
        Judges the bytes of a file as Read does. Prints one line: `accepted NUMBERS TERMS`
        or `refused NUMBER PLACE (WORD)`. The exit status is 0 if accepted, 1 if refused.

    reference cases --seed N --count M
        Writes test data to standard output: the cases worked by hand, the cases at each limit,
        and about M cases drawn at random. The same seed and count give the same file.

    reference summary FILE
        Prints what the test program prints of a file of test data when every case comes out as
        its group says: a line `NAME CASES` for each group, which goes on where its stored
        answers are wrong on purpose, then `ok`.

    reference line FILE
        Prints the line that the program prints of a file as its standard input.

    reference trace FILE
        Prints the lines of the same, one at the start and one after each event.

    reference peak FILE
        Prints `peak N` of the same, the most residuals that were held at a time up to the last
        event taken; or `no monitor` where none was opened.

    reference lines --seed N --count M
        Writes test data of the program's line to standard output: the inputs worked by hand,
        and about M drawn at random. The same seed and count give the same file.

    reference lines-summary FILE
        Prints the same of a file of inputs.

    reference histories --seed N --count M
        Writes test data of the monitor to standard output: the histories worked by hand, and
        about M drawn at random. The same seed and count give the same file.

    reference monitor-summary FILE
        Prints the same of a file of histories, whose cases are its calls.

    reference replay FILE
        Makes the calls of a file of histories again. Prints the same as monitor-summary, or the
        first answer that is not the stored one.

    reference sheet FILE
        Prints the sheet of a file as a lot book, or `refused NUMBER PLACE (WORD)`, with exit
        status 1.

    reference sheets --seed N --count M
        Writes test data of the lot sheet to standard output: the books worked by hand, those at
        each limit, and about M drawn at random. The same seed and count give the same file.

    reference sheets-summary FILE
        Prints the same of a file of lot books.

    reference washes --seed N --count M
        Writes test data of the wash hours to standard output: the histories worked by hand, and
        about M drawn at random. The same seed and count give the same file.

    reference washes-summary FILE
        Prints the same of a file of calls in wash hours.

    reference --help
        Prints this text.
";

fn main() -> ExitCode {
    let args: Vec<String> = std::env::args().skip(1).collect();
    let args: Vec<&str> = args.iter().map(String::as_str).collect();
    if args.iter().any(|arg| matches!(*arg, "--help" | "-h")) {
        return print(HELP);
    }
    let done = match args.as_slice() {
        ["check", file] => check(file),
        ["check", ..] => Err("check takes one file".to_string()),
        ["cases", options @ ..] => written("cases", options, reference::cases::file),
        ["summary", file] => summary(file, reference::summary::summary),
        ["summary", ..] => Err("summary takes one file".to_string()),
        ["line", file] => line(file),
        ["line", ..] => Err("line takes one file".to_string()),
        ["trace", file] => trace(file),
        ["trace", ..] => Err("trace takes one file".to_string()),
        ["peak", file] => peak(file),
        ["peak", ..] => Err("peak takes one file".to_string()),
        ["lines", options @ ..] => written("lines", options, reference::monitor::lines::file),
        ["lines-summary", file] => summary(file, reference::monitor::lines::summary),
        ["lines-summary", ..] => Err("lines-summary takes one file".to_string()),
        ["histories", options @ ..] => {
            written("histories", options, reference::monitor::histories::file)
        }
        ["monitor-summary", file] => summary(file, reference::monitor::summary::summary),
        ["replay", file] => summary(file, reference::monitor::replay::replay),
        ["replay", ..] => Err("replay takes one file".to_string()),
        ["monitor-summary", ..] => Err("monitor-summary takes one file".to_string()),
        ["sheet", file] => sheet(file),
        ["sheet", ..] => Err("sheet takes one file".to_string()),
        ["sheets", options @ ..] => written("sheets", options, reference::sheet::cases::file),
        ["sheets-summary", file] => summary(file, reference::sheet::cases::summary),
        ["sheets-summary", ..] => Err("sheets-summary takes one file".to_string()),
        ["washes", options @ ..] => written("washes", options, reference::wash::histories::file),
        ["washes-summary", file] => summary(file, reference::wash::histories::summary),
        ["washes-summary", ..] => Err("washes-summary takes one file".to_string()),
        [] => Err("a command is missing".to_string()),
        [command, ..] => Err(format!("`{command}` is not a command")),
    };
    done.unwrap_or_else(|error| {
        eprintln!("reference: {error}; see `reference --help`");
        ExitCode::from(2)
    })
}

// Standard output may be closed early; that is no error of ours to report at length.
fn print(text: &str) -> ExitCode {
    match std::io::stdout().write_all(text.as_bytes()) {
        Ok(()) => ExitCode::SUCCESS,
        Err(_) => ExitCode::from(2),
    }
}

fn bytes_of_file(file: &str) -> Result<Vec<u8>, String> {
    std::fs::read(file).map_err(|error| format!("cannot read {file}: {error}"))
}

fn refused(refusal: Refusal) -> ExitCode {
    let word = word(refusal.number);
    print(&format!("refused {} {} ({word})\n", refusal.number, refusal.place));
    ExitCode::from(1)
}

fn check(file: &str) -> Result<ExitCode, String> {
    Ok(match table_of_bytes(&bytes_of_file(file)?) {
        Ok(table) => print(&format!("accepted {} {}\n", table.list().len(), table.term_count())),
        Err(refusal) => refused(refusal),
    })
}

fn line(file: &str) -> Result<ExitCode, String> {
    let bytes = bytes_of_file(file)?;
    Ok(print(&(reference::monitor::program::line(&bytes) + "\n")))
}

fn trace(file: &str) -> Result<ExitCode, String> {
    Ok(print(&reference::monitor::program::trace(&bytes_of_file(file)?)))
}

fn peak(file: &str) -> Result<ExitCode, String> {
    let bytes = bytes_of_file(file)?;
    Ok(match reference::monitor::program::peak(&bytes) {
        Some(peak) => print(&format!("peak {peak}\n")),
        None => print("no monitor\n"),
    })
}

fn sheet(file: &str) -> Result<ExitCode, String> {
    let Outcome { answer, output } =
        reference::sheet::print::sheet(&bytes_of_file(file)?, usize::MAX);
    Ok(match answer {
        Ok(_) => print(&String::from_utf8_lossy(&output)),
        Err(refusal) => refused(refusal),
    })
}

fn summary(file: &str, summary: fn(&str) -> Result<String, String>) -> Result<ExitCode, String> {
    let text =
        std::fs::read_to_string(file).map_err(|error| format!("cannot read {file}: {error}"))?;
    Ok(print(&summary(&text).map_err(|error| format!("{file}: {error}"))?))
}

// Test data by a seed and a count.
fn written(
    command: &str,
    options: &[&str],
    file: fn(u64, usize) -> Result<String, String>,
) -> Result<ExitCode, String> {
    let (mut seed, mut count) = (None, None);
    let mut rest = options;
    while let [name, after @ ..] = rest {
        let [value, after @ ..] = after else {
            return Err(format!("{name} needs a number"));
        };
        let number = || value.parse().map_err(|_| format!("{name} {value}: not a number"));
        match *name {
            "--seed" => seed = Some(number()?),
            "--count" => count = Some(number()?),
            _ => return Err(format!("`{name}` is not an option of {command}")),
        }
        rest = after;
    }
    let seed = seed.ok_or("--seed is missing")?;
    let count = count.ok_or("--count is missing")?;
    if count > 1_000_000 {
        return Err("--count is at most 1,000,000".to_string());
    }
    Ok(print(&file(seed, count as usize)?))
}
