// The table of events per second, in Markdown; and the command line, for any monitors.
//     run         what the program does with its arguments and these monitors

use crate::inputs::{self, Input, Way};
use crate::measure::{feed, measured, Block};
use crate::monitor::Monitor;
use crate::replay::replay;
use reference::monitor::histories;
use std::time::Duration;

pub const HELP: &str = "\
bench: events per second of monitors, side by side on the same inputs, as a table in Markdown

    bench [OPTION ..]
        --input NAME      only the input of that name, or where there is none, those whose names
                          begin so; may be given again
        --block N         only calls of N events, or `long`; may be given again
        --time N          milliseconds of processor time for each measurement (10)
        --rounds N        how many rounds, in which each monitor is measured once (25)
    bench feed MONITOR N [OPTION ..]
        Feeds a monitor N events or more of each input, in calls of so many; measures nothing.
    bench inputs
        Says what the inputs are.
    bench check
        Makes the calls of seeded histories of each monitor: all must answer as the reference.
    bench --help
        Prints this text.
";

struct Options {
    names: Vec<String>,
    blocks: Vec<Block>,
    time: Duration,
    rounds: usize,
}

// The monitors' names are the columns; each but the first has beside it how many times as long as
// the first it takes.
pub fn run(monitors: &[&dyn Monitor], args: &[String]) -> Result<(), String> {
    let args: Vec<&str> = args.iter().map(String::as_str).collect();
    match args.as_slice() {
        ["--help" | "-h", ..] => print!("{HELP}"),
        ["inputs"] => list_inputs(),
        ["check"] => check(monitors)?,
        ["feed", name, events, options @ ..] => {
            let monitor = monitors.iter().find(|monitor| monitor.name() == *name);
            let monitor = monitor.ok_or(format!("`{name}` is no monitor"))?;
            feed_all(*monitor, number("feed", events)?, &parse(options)?);
        }
        options => table(monitors, &parse(options)?),
    }
    Ok(())
}

fn parse(mut args: &[&str]) -> Result<Options, String> {
    let mut options = Options {
        names: Vec::new(),
        blocks: Vec::new(),
        time: Duration::from_millis(10),
        rounds: 25,
    };
    while let [name, value, rest @ ..] = args {
        match *name {
            "--input" => options.names.push(value.to_string()),
            "--block" if *value == "long" => options.blocks.push(Block::Long),
            "--block" => options.blocks.push(Block::Of(number(name, value)?)),
            "--time" => options.time = Duration::from_millis(number(name, value)? as u64),
            "--rounds" => options.rounds = number(name, value)?,
            _ => return Err(format!("`{name}` is not an option; see `bench --help`")),
        }
        args = rest;
    }
    if !args.is_empty() {
        return Err(format!("`{}` needs a value; see `bench --help`", args[0]));
    }
    if options.blocks.is_empty() {
        options.blocks = vec![Block::Of(1), Block::Of(16), Block::Of(256), Block::Long];
    }
    Ok(options)
}

// 1 or more: nothing is measured in no time, no rounds and no events.
fn number(name: &str, value: &str) -> Result<usize, String> {
    let number = value.parse().ok().filter(|&number| number > 0);
    number.ok_or(format!("{name} {value}: not a number from 1 on"))
}

fn list_inputs() {
    println!("| Input | What |\n|---|---|");
    for Input { name, says, .. } in inputs::all() {
        println!("| {name} | {says} |");
    }
}

fn check(monitors: &[&dyn Monitor]) -> Result<(), String> {
    for seed in 1..4 {
        let text = histories::file(seed, 4_000)?;
        for monitor in monitors {
            let name = monitor.name();
            let calls = replay(*monitor, &text).map_err(|wrong| format!("{name}: {wrong}"))?;
            println!("{name}: {calls} calls answered as stored (seed {seed})");
        }
    }
    Ok(())
}

fn table(monitors: &[&dyn Monitor], options: &Options) {
    let mut head = vec!["Input".to_string(), "Events in a call".to_string()];
    let mut rule = vec!["---", "---:"];
    for (i, monitor) in monitors.iter().enumerate() {
        head.push(monitor.name().to_string());
        rule.push("---:");
        if i > 0 {
            head.push("times".to_string());
            rule.push("---:");
        }
    }
    println!("| {} |\n|{}|", head.join(" | "), rule.join("|"));
    let mut left_out = Vec::new();
    for input in chosen(options) {
        left_out.extend(rows(monitors, options, &input));
    }
    if !left_out.is_empty() {
        let (first, time) = (monitors[0].name(), options.time.as_millis());
        println!("\nNot measured, since a call of {first} takes longer than {time} ms:");
        println!("{}", left_out.join("; "));
    }
}

fn chosen(options: &Options) -> Vec<Input> {
    let all = inputs::all();
    let names: Vec<&str> = all.iter().map(|input| input.name).collect();
    let meant = |name: &str, input: &Input| match names.contains(&name) {
        true => input.name == name,
        false => input.name.starts_with(name),
    };
    let named = |input: &Input| options.names.iter().any(|name| meant(name, input));
    all.into_iter().filter(|input| options.names.is_empty() || named(input)).collect()
}

// The column that says how many events a call has.
fn in_a_call(input: &Input, block: Block) -> String {
    match (&input.way, block) {
        (Way::Fresh(events), _) => format!("{} (fresh)", events.len()),
        (_, Block::Of(count)) => count.to_string(),
        (_, Block::Long) => "long".to_string(),
    }
}

// The rows of an input; those that are left out.
fn rows(monitors: &[&dyn Monitor], options: &Options, input: &Input) -> Vec<String> {
    let mut left_out = Vec::new();
    // the first monitor's rate in the row before
    let mut rate = f64::INFINITY;
    for &block in blocks(options, input) {
        let events = in_a_call(input, block);
        match (&input.way, block) {
            // a call would take longer than the time: `long` says it
            (Way::Cycle { .. }, Block::Of(count))
                if count as f64 > rate * options.time.as_secs_f64() =>
            {
                left_out.push(format!("{} {events}", input.name));
                continue;
            }
            _ => {}
        }
        let measured = measured(monitors, input, block, options.time, options.rounds);
        rate = measured[0].rate;
        let mut cells = vec![input.name.to_string(), events, grouped(rate)];
        for monitor in &measured[1..] {
            cells.extend([grouped(monitor.rate), format!("{:.2}", monitor.times)]);
        }
        println!("| {} |", cells.join(" | "));
    }
    left_out
}

// An input whose calls are fresh has one row.
fn blocks<'a>(options: &'a Options, input: &Input) -> &'a [Block] {
    match input.way {
        Way::Fresh(_) => &options.blocks[..1],
        Way::Cycle { .. } => &options.blocks,
    }
}

// A line for each row: how many events it was fed.
fn feed_all(monitor: &dyn Monitor, events: usize, options: &Options) {
    for input in chosen(options) {
        for &block in blocks(options, &input) {
            let fed = feed(monitor, &input, block, events);
            println!("{}, {}: {fed} events", input.name, in_a_call(&input, block));
        }
    }
}

// A rate to three digits, in groups of three: 12,300,000.
fn grouped(rate: f64) -> String {
    let scale = 10f64.powi((rate.max(1.0).log10().floor() as i32 - 2).max(0));
    let digits = format!("{}", (rate / scale).round() * scale);
    let mut text = String::new();
    for (i, digit) in digits.chars().enumerate() {
        if i > 0 && (digits.len() - i) % 3 == 0 {
            text.push(',');
        }
        text.push(digit);
    }
    text
}

#[cfg(test)]
mod tests {
    use super::*;

    #[test]
    fn options_that_measure_nothing_are_refused() {
        for option in [["--time", "0"], ["--rounds", "0"], ["--block", "0"], ["--time", "x"]] {
            assert!(parse(&option).is_err(), "{option:?}");
        }
        assert!(parse(&["--time", "1", "--block", "long"]).is_ok());
        assert!(parse(&["--time"]).is_err());
    }

    #[test]
    fn an_input_is_named_whole_or_by_its_beginning() {
        let count = |name| chosen(&parse(&["--input", name]).unwrap()).len();
        assert!(
            [count("eight lanes"), count("eight"), count("stress"), count("none")]
                == [1, 2, 13, 0]
        );
    }
}
