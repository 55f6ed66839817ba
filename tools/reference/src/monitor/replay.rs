// The test program in short: the calls of a file of histories made again, and what it prints; or
// the first line whose answer is another one, or is not where it is stored wrong on purpose.

use super::history::{Fill, History};
use super::state::Record;
use super::summary::summary;
use crate::summary::group;

pub fn replay(text: &str) -> Result<String, String> {
    let printed = summary(text)?;
    let mut history = History::new();
    let mut wrong = false;
    for (i, line) in text.lines().enumerate() {
        if line.starts_with('#') {
            wrong = group(line).map_or(wrong, |(_, wrong)| wrong);
            continue;
        }
        history.text.clear();
        again(&mut history, line).ok_or(format!("line {}: cannot be done", i + 1))?;
        let given = history.text.trim_end();
        if (given != line) != (wrong && line.contains('=')) {
            let given: String = given.chars().take(200).collect();
            return Err(format!("line {}: given: {given}", i + 1));
        }
    }
    Ok(printed)
}

// Does what the line says; the history then has the line with its own answer.
fn again(history: &mut History, line: &str) -> Option<()> {
    let words: Vec<&str> = line.split(' ').take_while(|word| *word != "=").collect();
    let numbers: Vec<u64> =
        words[1..].iter().map(|word| word.parse().ok()).collect::<Option<_>>()?;
    let list = || numbers.iter().map(|&n| u16::try_from(n).ok()).collect::<Option<Vec<u16>>>();
    let length = |i: usize| numbers.get(i).map(|&n| n as usize);
    match words[0] {
        "t" => history.table(&list()?),
        "u" => history.other_table(&list()?),
        "a" => {
            let fill = *[Fill::Zeros, Fill::Junk, Fill::Kept].get(length(2)?)?;
            history.lend(length(0)?, length(1)?, fill);
        }
        "r" => {
            let [taken, count, peak, failed, at] = numbers[..] else { return None };
            let failed = (failed == 1).then_some(at);
            history.set_record(Record { taken, count, peak, failed });
        }
        "x" => history.set_words(length(0)?, length(1)?, &numbers[2..]),
        "b" => {
            let events: Vec<u8> = numbers[1..].iter().map(|&e| e as u8).collect();
            history.open_work(&events, length(0)?);
        }
        "f" => {
            let events: Vec<u8> = numbers[1..].iter().map(|&e| e as u8).collect();
            history.feed_work(&events, length(0)?);
        }
        "d" => {
            let events: Vec<u8> = numbers.get(3..)?.iter().map(|&e| e as u8).collect();
            history.try_work(&events, length(0)?, [length(1)?, length(2)?]);
        }
        "o" => {
            history.offer_work(length(0)?);
        }
        "v" => {
            history.view();
        }
        _ => return None,
    }
    Some(())
}
