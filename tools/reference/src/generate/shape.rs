// Terms and tables with a given size, depth, width, number of branches or length, at a limit or
// beyond it.
//     sized, spine, wide, branching      terms
//     terms_table, deep_table, wide_table, branches_table, long_table

use super::leaf;
use crate::random::Random;
use crate::table::*;

// A table of plain sets {0}, {1} and {}, A = 3, whose terms are given.
pub fn with_bodies(definitions: Vec<Definition>) -> Table {
    let sets = vec![Set::Plain(vec![0]), Set::Plain(vec![1]), Set::Plain(vec![])];
    Table { alphabet: 3, sets, definitions }
}

pub fn definition(level: u16, body: Term) -> Definition {
    Definition { level, body }
}

fn one_of_three(random: &mut Random) -> SetReference {
    plain(random.below(3) as u16)
}

// ---- size and depth

// A term of just `size` terms, in a depth that 2^depth - 1 terms fit in.
pub fn sized(random: &mut Random, size: usize, depth: usize) -> Term {
    let most = (1usize << (depth - 1).min(20)) - 1;
    if size == 1 {
        return if random.once_in(8) { Term::Stop } else { Term::Fail };
    }
    if size == 2 || (size - 1 <= most / 4 && random.once_in(4)) {
        let set = one_of_three(random);
        return prefix(set, sized(random, size - 1, depth - 1));
    }
    let low = 1.max((size - 1).saturating_sub(most));
    let high = (size - 2).min(most);
    let left = random.between(low, high);
    choice(sized(random, left, depth - 1), sized(random, size - 1 - left, depth - 1))
}

// A draft with just this many terms, in some definitions.
pub fn terms_table(random: &mut Random, terms: usize) -> Table {
    let count = random.between(1, 32);
    let mut definitions = Vec::new();
    let mut rest = terms;
    for i in 0..count {
        let after = count - 1 - i;
        let size =
            if after == 0 { rest } else { random.between(1, 2 * (rest - after) / (after + 1)) };
        let size = size.min(rest - after);
        definitions.push(definition(random.below(8) as u16, sized(random, size, 20)));
        rest -= size;
    }
    with_bodies(definitions)
}

// A term whose deepest term is at this depth, a body being at 1.
pub fn spine(random: &mut Random, depth: usize) -> Term {
    let mut term = leaf(random);
    let mut parallels = 0;
    for _ in 1..depth {
        let side = leaf(random);
        term = match random.below(6) {
            0 => choice(term, side),
            1 => choice(side, term),
            2 if parallels < 7 => {
                parallels += 1;
                parallel(one_of_three(random), term, side)
            }
            3 if parallels < 7 => {
                parallels += 1;
                parallel(one_of_three(random), side, term)
            }
            _ => prefix(one_of_three(random), term),
        };
    }
    term
}

// A draft with a spine of this depth among other definitions.
pub fn deep_table(random: &mut Random, depth: usize) -> Table {
    let count = random.between(1, 4);
    let deep = random.below(count);
    let bodies = (0..count).map(|i| {
        let depth = if i == deep { depth } else { random.between(1, 6) };
        definition(random.below(8) as u16, spine(random, depth))
    });
    with_bodies(bodies.collect())
}

// ---- width (01: hands)

// A term without calls of just this width.
pub fn wide(random: &mut Random, width: usize, depth: usize) -> Term {
    if depth > width && random.once_in(4) {
        let set = one_of_three(random);
        return prefix(set, wide(random, width, depth - 1));
    }
    if depth > width && random.once_in(6) {
        let other = random.between(1, width);
        let (one, two) = (wide(random, width, depth - 1), wide(random, other, other));
        return if random.once_in(2) { choice(one, two) } else { choice(two, one) };
    }
    if width == 1 {
        return leaf(random);
    }
    let left = random.between(1, width - 1);
    let set = one_of_three(random);
    parallel(set, wide(random, left, depth - 1), wide(random, width - left, depth - 1))
}

// A draft whose levels below `level` have at most 8, and `level` just `width`, partly by calls
// of lower levels, each of which counts as its level's width and not as the body called.
pub fn wide_table(random: &mut Random, level: u16, width: usize) -> Table {
    let mut definitions = Vec::new();
    let mut callable: Vec<(u16, usize)> = Vec::new();
    for lower in 0..level {
        if random.once_in(2) {
            let most = random.between(1, 8);
            let another = random.between(1, most);
            for width in [most, another] {
                callable.push((definitions.len() as u16, most));
                definitions.push(definition(lower, wide(random, width, 12)));
            }
        }
    }
    let guarded = random.once_in(2);
    let mut parts = Vec::new();
    let mut rest = width;
    while rest > 0 {
        let fitting: Vec<_> = callable.iter().filter(|(_, width)| *width <= rest).collect();
        if fitting.is_empty() || random.once_in(3) {
            let part = random.between(1, rest);
            parts.push(wide(random, part, 12));
            rest -= part;
        } else {
            let (called, width) = **random.pick(&fitting);
            let set = one_of_three(random);
            let call = Term::Call(called);
            parts.push(if guarded { prefix(set, call) } else { call });
            rest -= width;
        }
    }
    let mut body = parts.pop().expect("a width above 0");
    while let Some(part) = parts.pop() {
        body = parallel(one_of_three(random), part, body);
    }
    definitions.push(definition(level, body));
    // a higher level that is too wide as well does not come first
    if width > 8 && level < MOST_LEVEL && random.once_in(2) {
        definitions.push(definition(level + 1, wide(random, 10, 12)));
    }
    let table = with_bodies(definitions);
    if guarded {
        reordered(random, table)
    } else {
        table
    }
}

// The same definitions in another order, calls renumbered.
fn reordered(random: &mut Random, table: Table) -> Table {
    let count = table.definitions.len();
    let mut order: Vec<usize> = (0..count).collect();
    for i in (1..count).rev() {
        order.swap(i, random.below(i + 1));
    }
    let mut new_number = vec![0; count];
    for (new, &old) in order.iter().enumerate() {
        new_number[old] = new as u16;
    }
    let definitions = order.iter().map(|&old| Definition {
        level: table.definitions[old].level,
        body: renumbered(&table.definitions[old].body, &new_number),
    });
    Table { definitions: definitions.collect(), ..table }
}

fn renumbered(term: &Term, new_number: &[u16]) -> Term {
    match term {
        Term::Stop | Term::Fail => term.clone(),
        Term::Prefix(set, follower) => prefix(set.clone(), renumbered(follower, new_number)),
        Term::Choice(left, right) => {
            choice(renumbered(left, new_number), renumbered(right, new_number))
        }
        Term::Parallel(set, left, right) => {
            parallel(set.clone(), renumbered(left, new_number), renumbered(right, new_number))
        }
        Term::Call(called) => Term::Call(new_number[*called as usize]),
    }
}

// ---- branches (01: openings)

// A term of just this many branches, of width at most `width`. `callable` are definitions that
// may be called, with their branches; their width is 1.
pub fn branching(
    random: &mut Random,
    branches: usize,
    width: usize,
    callable: &[(u16, usize)],
) -> Term {
    let fitting: Vec<_> = callable.iter().filter(|(_, n)| *n == branches).collect();
    if !fitting.is_empty() && random.once_in(2) {
        return Term::Call(random.pick(&fitting).0);
    }
    if branches == 0 {
        return Term::Fail;
    }
    if branches == 1 {
        if random.once_in(8) {
            return prefix(one_of_three(random), leaf(random));
        }
        return Term::Stop;
    }
    let factor = random.between(2, 8);
    if width >= 2 && branches % factor == 0 && random.once_in(2) {
        let (set, right) = (one_of_three(random), width / 2);
        let left = branching(random, branches / factor, width - right, callable);
        return parallel(set, left, branching(random, factor, right, callable));
    }
    let left = match fitting_call(random, callable, branches) {
        Some(n) => n,
        None => random.between((branches / 4).max(1), 3 * branches / 4),
    };
    let one = branching(random, left, width, callable);
    choice(one, branching(random, branches - left, width, callable))
}

fn fitting_call(
    random: &mut Random,
    callable: &[(u16, usize)],
    branches: usize,
) -> Option<usize> {
    let sizes: Vec<usize> =
        callable.iter().map(|(_, n)| *n).filter(|n| branches / 4 < *n && *n < branches).collect();
    (!sizes.is_empty() && random.once_in(2)).then(|| *random.pick(&sizes))
}

// A draft with one body or follower of this many branches, all others having at most 256; and
// the number of that term.
pub fn branches_table(random: &mut Random, branches: usize, follower: bool) -> (Table, usize) {
    let mut definitions = Vec::new();
    let mut callable = Vec::new();
    for number in 0..random.between(0, 2) {
        let n = random.between(1, 256.min(branches));
        callable.push((number as u16, n));
        definitions.push(definition(0, branching(random, n, 1, &[])));
    }
    let big = branching(random, branches, 4, &callable);
    let mut number: usize = definitions.iter().map(|d| d.body.size()).sum();
    let mut body = big;
    if follower {
        for _ in 0..random.between(1, 5) {
            body = prefix(one_of_three(random), body);
            number += 1;
        }
        if random.once_in(2) {
            let beside = leaf(random);
            number += 1 + beside.size();
            body = choice(beside, body);
        }
    }
    definitions.push(definition(1, body));
    if random.once_in(2) {
        definitions.push(definition(random.between(0, 7) as u16, Term::Stop));
    }
    let table = with_bodies(definitions);
    if table.term_count() > MOST_TERMS {
        return branches_table(random, branches, follower);
    }
    (table, number)
}

// ---- length

// A table of just this many numbers, above 5,000, with A = 64 and three plain sets first.
pub fn long_table(random: &mut Random, numbers: usize, definitions: Vec<Definition>) -> Table {
    let rows = random.between(5, 20);
    let rest = random.between(3, 64 - rows);
    // the other numbers: each set's kind, each row's count, and what a table without sets has
    let bare = Table { alphabet: 64, sets: Vec::new(), definitions };
    let counts = rows * 65 + rest * 2 + bare.list().len();
    let mut events = numbers - counts;
    let mut left = rows * 64 + rest;
    let mut next_row = |random: &mut Random| -> Row {
        left -= 1;
        let least = events.saturating_sub(64 * left);
        let count = random.between(least, events.min(64));
        events -= count;
        let start = random.between(0, 64 - count) as u16;
        (start..start + count as u16).collect()
    };
    let mut sets = Vec::new();
    for _ in 0..rest {
        sets.push(Set::Plain(next_row(random)));
    }
    for _ in 0..rows {
        sets.push(Set::Rows((0..64).map(|_| next_row(random)).collect()));
    }
    Table { sets, ..bare }
}
