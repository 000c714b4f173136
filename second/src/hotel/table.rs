//! The table of what was seen: a line for each scenario.

use super::seen::{Answers, Seen};
use crate::asking::GREATEST_LIMIT;
use crate::refusal;

/// What the columns are.
pub const LEGEND: &str = "\
receipts; taken, 32: how many of them were taken and refused 32, in %; least, most: the latter of one
monitor; other: refused with other numbers, and how often; rises: refused receipts that would have
brought a higher epoch; data16, entries32: monitors that ended with as many, so that they were full.
contr, open, betw: contradicted, open and between at each limit, in % of the answers; width: the median
of the last in seconds. above: answers at a limit of at least as many names as have failed, but those of
monitors that lied themselves, and how many of them were wrong, which none can be. below: all other
answers, how many of them were contradicted, and how many had true time outside.
";

/// A line for each name, and one of headings.
pub fn table(rows: &[(String, &[Seen])]) -> String {
    let lines = rows.iter().map(|(name, seen)| line(name, seen));
    let lines: Vec<Vec<String>> = [headings()].into_iter().chain(lines).collect();
    let width = |column: usize| lines.iter().map(|line| line[column].len()).max().unwrap_or(0);
    let widths: Vec<usize> = (0..lines[0].len()).map(width).collect();
    let aligned = |line: &Vec<String>| {
        let first = format!("{:<1$}", line[0], widths[0]);
        let rest = line.iter().zip(&widths).skip(1).map(|(cell, width)| format!("{cell:>width$}"));
        [first].into_iter().chain(rest).collect::<Vec<String>>().join("  ") + "\n"
    };
    lines.iter().map(aligned).collect()
}

fn headings() -> Vec<String> {
    let first = ["scenario", "receipts", "taken", "32", "least", "most", "other", "rises"];
    let first = first.into_iter().chain(["data16", "entries32"]).map(String::from);
    let of_limit = |limit| ["contr", "open", "betw", "width"].map(|what| format!("{what}{limit}"));
    let last = ["above", "wrong", "below", "contr", "outside"].map(String::from);
    first.chain((0..=GREATEST_LIMIT).flat_map(of_limit)).chain(last).collect()
}

fn line(name: &str, all: &[Seen]) -> Vec<String> {
    let seen = Seen::sum(all);
    let refused = |seen: &Seen| share(seen.number(refusal::TOO_MANY), seen.receipts());
    let mut shares: Vec<f64> = all.iter().map(refused).collect();
    shares.sort_by(f64::total_cmp);
    let taken = share(seen.number(refusal::TAKEN), seen.receipts());
    let shares = [taken, refused(&seen), shares[0], shares[shares.len() - 1]];
    let full = [0, 1].map(|kind| all.iter().filter(|seen| seen.full()[kind]).count());
    let (promised, others) = (seen.promised(), seen.others());
    let first = [name.to_string(), seen.receipts().to_string()];
    let shares = shares.iter().map(|share| format!("{share:.1}"));
    let counts = [others_refused(&seen), seen.rises_refused.to_string()];
    let full = full.iter().map(usize::to_string);
    let last =
        [promised.asked(), promised.wrong(), others.asked(), others.contradicted, others.outside];
    let cells = first.into_iter().chain(shares).chain(counts).chain(full);
    let cells = cells.chain(seen.answers.iter().flat_map(of_limit));
    cells.chain(last.iter().map(u64::to_string)).collect()
}

/// The numbers other than 32 that refused receipts had, and how often.
fn others_refused(seen: &Seen) -> String {
    let other = |number: &u32| ![refusal::TAKEN, refusal::TOO_MANY].contains(number);
    let others = seen.numbers.iter().filter(|(number, _)| other(number));
    let others: Vec<String> = others.map(|(number, count)| format!("{number}:{count}")).collect();
    if others.is_empty() {
        "-".into()
    } else {
        others.join(",")
    }
}

/// Contradicted, open and between as shares, and the median width.
fn of_limit(answers: &Answers) -> [String; 4] {
    let all = answers.all();
    let between = all.inside + all.outside;
    let width = answers.width().map(|width| format!("{:.3}", width as f64 / 1_000_000.0));
    let [contradicted, open, between] =
        [all.contradicted, all.open, between].map(|n| format!("{:.1}", share(n, all.asked())));
    [contradicted, open, between, width.unwrap_or("-".into())]
}

/// So many of so many, in %.
fn share(part: u64, whole: u64) -> f64 {
    100.0 * part as f64 / whole.max(1) as f64
}
