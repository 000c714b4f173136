//! The listing (document 01, "A listing, complete"; document 02, W-204): lines of bytes in, a line
//! out for each.

use crate::asking::{ANSWER_BYTES, FEWEST_BYTES, GREATEST_LIMIT, OVER};
use crate::message::bytes_of;
use crate::refusal;
use crate::state::STATE_BYTES;
use crate::{ageing, asking, receiving, set_up};

/// A longer line is a bad one; the line feed does not count.
pub const LONGEST_LINE: usize = 600;
/// A field has 1 to so many digits.
const MOST_DIGITS: usize = 20;

/// What the listing program prints for its whole input.
pub fn listing(input: &[u8]) -> String {
    let mut listing = Listing::default();
    // The last line counts without a line feed too, if it has bytes.
    input.split_inclusive(|&byte| byte == b'\n').fold(String::new(), |printed, line| {
        let line = line.strip_suffix(b"\n").unwrap_or(line);
        printed + &listing.answer(line) + "\n"
    })
}

/// The state that lines work on; none before the first taken `set`.
#[derive(Default)]
pub struct Listing {
    state: Option<Box<[u8; STATE_BYTES]>>,
}

/// What a line asks for.
#[derive(Debug, PartialEq, Eq)]
enum Line {
    Set { own: u32, drift: u32, reading: u64, epoch: u64 },
    Age { reading: u64 },
    Get { least: u64, greatest: u64, words: Vec<u32> },
    Ask { limit: u64 },
    Fewest,
}

impl Listing {
    /// What a line yields.
    pub fn answer(&mut self, line: &[u8]) -> String {
        let answer = match (Line::of(line), &mut self.state) {
            (Some(Line::Set { own, drift, reading, epoch }), _) => {
                Some(self.set(own, drift, reading, epoch))
            }
            (Some(line), Some(state)) => Some(line.answer(&mut state[..])),
            _ => None,
        };
        answer.unwrap_or_else(|| "bad line".into())
    }

    /// Starts afresh if it is taken, and leaves all as it was if it is refused.
    fn set(&mut self, own: u32, drift: u32, reading: u64, epoch: u64) -> String {
        let mut fresh = Box::new([0; STATE_BYTES]);
        let number = set_up::call(&mut fresh[..], own, drift, reading, epoch);
        if number == refusal::TAKEN {
            self.state = Some(fresh);
        }
        done(number)
    }
}

impl Line {
    /// The line's meaning; none if it is a bad one.
    fn of(line: &[u8]) -> Option<Line> {
        if line.len() > LONGEST_LINE {
            return None;
        }
        let mut fields = line.split(|&byte| byte == b' ');
        let name = fields.next()?;
        let fields: Vec<u64> = fields.map(number).collect::<Option<_>>()?;
        let short = |field: u64| u32::try_from(field).ok();
        Some(match (name, &fields[..]) {
            (b"set", &[own, drift, reading, epoch]) => {
                Line::Set { own: short(own)?, drift: short(drift)?, reading, epoch }
            }
            (b"age", &[reading]) => Line::Age { reading },
            (b"get", &[least, greatest, ref words @ ..]) => {
                let words = words.iter().map(|&word| short(word)).collect::<Option<_>>()?;
                Line::Get { least, greatest, words }
            }
            (b"ask", &[limit]) => Line::Ask { limit },
            (b"fewest", []) => Line::Fewest,
            _ => return None,
        })
    }

    /// What it yields in a state; `set` is not asked.
    fn answer(self, state: &mut [u8]) -> String {
        match self {
            Line::Set { .. } => unreachable!("`set` makes its own state"),
            Line::Age { reading } => done(ageing::call(state, reading)),
            Line::Get { least, greatest, words } => {
                done(receiving::call(state, least, greatest, None, &bytes_of(&words)))
            }
            Line::Ask { limit } => {
                let mut out = [0; ANSWER_BYTES];
                match asking::ask_call(state, limit, &mut out) {
                    refusal::TAKEN => answered(numbers(&out)),
                    number => done(number),
                }
            }
            Line::Fewest => {
                let mut out = [0; FEWEST_BYTES];
                match asking::fewest_call(state, &mut out) {
                    refusal::TAKEN => found(numbers(&out)),
                    number => done(number),
                }
            }
        }
    }
}

/// A field's number: decimal, 1 to 20 digits, of 64 bits.
fn number(field: &[u8]) -> Option<u64> {
    if field.is_empty() || field.len() > MOST_DIGITS {
        return None;
    }
    field.iter().try_fold(0u64, |number, byte| {
        let digit = byte.is_ascii_digit().then(|| u64::from(byte - b'0'))?;
        number.checked_mul(10)?.checked_add(digit)
    })
}

/// The line of a call without an output.
fn done(number: u32) -> String {
    match number {
        refusal::TAKEN => "ok".into(),
        number => format!("refused {number}"),
    }
}

/// The numbers that a question wrote, 8 bytes each.
fn numbers<const N: usize>(out: &[u8]) -> [u64; N] {
    let (numbers, _) = out.as_chunks();
    std::array::from_fn(|i| u64::from_le_bytes(numbers[i]))
}

/// The line of an answer.
fn answered([kind, left, right]: [u64; 3]) -> String {
    match kind {
        0 => "contradicted".into(),
        1 => "open".into(),
        _ => format!("between {left} {right}"),
    }
}

/// The line of the fewest failures.
fn found([count, mask]: [u64; 2]) -> String {
    match count {
        OVER => format!("fewest over {GREATEST_LIMIT}"),
        _ => format!("fewest {count} {mask}"),
    }
}

#[cfg(test)]
mod tests {
    use super::*;
    use crate::epochs::GREATEST_EPOCH;
    use crate::instants::GREATEST_END;
    use crate::message::{check_word, kind, split, word, MOST_TERMS, MOST_WORDS};
    use crate::predicates::GREATEST_NAME;
    use crate::receiving::GREATEST_DELAY;
    use crate::samples::texts::{DOCUMENT_01, PRINTED};
    use crate::state::{GREATEST_DRIFT, GREATEST_READING, MOST_DATA};

    /// What the lines of a text yield, after a taken `set`.
    fn after_set(text: &str) -> Vec<String> {
        let printed = listing(format!("set 5 100 7 2\n{text}").as_bytes());
        let mut lines = printed.lines().map(String::from);
        assert_eq!(lines.next().as_deref(), Some("ok"));
        lines.collect()
    }

    /// What one line yields, after a taken `set`.
    fn one(line: &str) -> String {
        after_set(line).concat()
    }

    /// A `get` line without delays, of a message in ends form; all names in it have this epoch.
    fn get_at(epoch: u32, sender: u32, left: u64, right: u64, terms: &[u32]) -> String {
        let head = word(kind::HEAD, (terms.len() as u32) << 5 | sender);
        let named = |n: &u32| *n == sender || terms.iter().any(|t| t >> n & 1 != 0);
        let epochs = (0..=GREATEST_NAME).filter(named).map(|n| epoch << 5 | n).collect();
        let ends = [split(kind::LEFT, left), split(kind::RIGHT, right)].concat();
        let terms = terms.iter().map(|&t| word(kind::TERM, t)).collect();
        let mut words = [vec![head], epochs, ends, terms].concat();
        words.push(check_word(&words));
        line_of(&words)
    }

    /// The same at the first epoch.
    fn get(sender: u32, left: u64, right: u64, terms: &[u32]) -> String {
        get_at(0, sender, left, right, terms)
    }

    fn line_of(words: &[u32]) -> String {
        let words = words.iter().map(|word| format!(" {word}"));
        format!("get 0 0{}", words.collect::<String>())
    }

    /// The line with one of its words changed, and the check word made good.
    fn changed(line: &str, place: usize, change: impl Fn(u32) -> u32) -> String {
        let mut words: Vec<u32> =
            line.split(' ').skip(3).map(|word| word.parse().expect("a word")).collect();
        words[place] = change(words[place]);
        let last = words.len() - 1;
        if place != last {
            words[last] = check_word(&words[..last]);
        }
        line_of(&words)
    }

    #[test]
    fn listing_of_document_01_prints_its_lines() {
        assert_eq!(listing(DOCUMENT_01.as_bytes()), PRINTED);
    }

    #[test]
    fn delays_count_by_the_ageing_rule() {
        let after = |least: u64, greatest: u64| {
            let delays = format!("get {least} {greatest}");
            let line = get(1, 1_000_000, 1_000_200, &[]).replacen("get 0 0", &delays, 1);
            after_set(&format!("{line}\nask 0"))
        };
        assert_eq!(after(0, 50), ["ok", "between 1000000 1000251"]);
        assert_eq!(after(50, 50), ["ok", "between 1000049 1000251"]);
        assert_eq!(after(0, 50_000), ["ok", "between 1000000 1050205"]);
        assert_eq!(after(0, 60_000_001), ["ok", "between 1000000 61006202"]);
        assert_eq!(after(600_000_000, 600_000_000), ["ok", "between 600940000 601060200"]);
        assert_eq!(after(0, 600_000_001), ["refused 21", "open"]);
    }

    #[test]
    fn longest_message_is_read() {
        // Every name in eight terms, and twenty digits a field leave no room in a line.
        let terms: Vec<u32> = (0..MOST_TERMS).map(|n| 0x1fff_ffff ^ 1 << n).rev().collect();
        let line = get(1, 0, 9, &terms);
        assert_eq!(line.split(' ').count(), 3 + MOST_WORDS);
        assert_eq!(after_set(&format!("{line}\nask 0")), ["ok", "between 0 9"]);
    }

    #[test]
    fn names_that_come_back_with_a_higher_epoch_are_others() {
        let apart = [get(1, 0, 10, &[]), get(2, 20, 30, &[])].join("\n");
        let mended = get_at(1, 1, 22, 40, &[]);
        let lines = after_set(&format!("{apart}\nask 0\n{mended}\nask 0\n{apart}\nask 0"));
        let between = "between 22 30";
        assert_eq!(lines[2..], ["contradicted", "ok", between, "ok", "ok", between]);
    }

    #[test]
    fn answers_of_every_kind() {
        let apart = [get(1, 0, 10, &[]), get(2, 20, 30, &[])].join("\n");
        let lines = after_set(&format!("{apart}\nask 0\nask 1\nask 2\nfewest"));
        assert_eq!(lines[2..], ["contradicted", "between 0 30", "open", "fewest 1 2"]);
        let more = [3, 4, 6, 7].map(|n| get(n, 100 * u64::from(n), 100 * u64::from(n), &[]));
        let lines = after_set(&format!("{apart}\n{}\nask 4\nfewest", more.join("\n")));
        assert_eq!(lines[lines.len() - 2..], ["contradicted", "fewest over 4"]);
    }

    #[test]
    fn refusals_of_the_installer_and_of_the_host() {
        let (name, drift) = (GREATEST_NAME + 1, GREATEST_DRIFT + 1);
        let (reading, delay) = (GREATEST_READING + 1, GREATEST_DELAY + 1);
        let epoch = GREATEST_EPOCH + 1;
        let sets = format!("set {name} 0 0 0\nset 0 {drift} 0 0\nset 0 0 {reading} 0");
        assert_eq!(listing(sets.as_bytes()), "refused 1\nrefused 2\nrefused 3\n");
        let sets = format!("set {name} 0 0 {epoch}\nset 0 {drift} {reading} {epoch}\nset 0 0 0 15");
        assert_eq!(listing(sets.as_bytes()), "refused 1\nrefused 41\nok\n");
        assert_eq!(one("set 5 100 0 4294967296"), "refused 41");
        assert_eq!(one("set 5 100 0 18446744073709551615"), "refused 41");
        assert_eq!(one(&format!("age {reading}")), "refused 3");
        assert_eq!(one("age 6"), "refused 20");
        assert_eq!(one("get 1 0 9"), "refused 21");
        assert_eq!(one(&format!("get 0 {delay} 9")), "refused 21");
        assert_eq!(one(&format!("ask {OVER}")), "refused 22");
        assert_eq!(one("ask 18446744073709551615"), "refused 22");
    }

    #[test]
    fn refusals_of_the_sender() {
        // A head, three epoch words, four of ends, two terms and the check word.
        let line = get(1, 10, 20, &[6, 8]);
        assert_eq!(one(&line), "ok");
        assert_eq!(one("get 0 0"), "refused 10");
        assert_eq!(one(&format!("get 0 0{}", " 9".repeat(MOST_WORDS + 1))), "refused 10");
        // As many words as a line has room for; the delays come first.
        assert_eq!(one(&format!("get 0 0{}", " 9".repeat(296))), "refused 10");
        assert_eq!(one(&format!("get 1 0{}", " 9".repeat(296))), "refused 21");
        let head = word(kind::HEAD, GREATEST_NAME + 1);
        assert_eq!(one(&changed(&line, 0, |_| head)), "refused 12");
        assert_eq!(one(&changed(&line, 4, |w| w | 7 << 29)), "refused 11");
        assert_eq!(one(&changed(&line, 0, |w| w + (1 << 5))), "refused 13");
        assert_eq!(one(&changed(&line, 9, |w| w | 7 << 29)), "refused 14");
        assert_eq!(one(&changed(&line, 2, |w| w + 2)), "refused 42");
        assert_eq!(one(&changed(&line, 3, |w| w | 1 << 9)), "refused 42");
        assert_eq!(one(&changed(&line, 10, |w| w ^ 1)), "refused 15");
        assert_eq!(one(&changed(&line, 5, |w| w + 11)), "refused 16");
        // Terms {1,2} and {3} as {3} and {1,2}.
        assert_eq!(one(&changed(&changed(&line, 8, |w| w + 2), 9, |w| w - 2)), "refused 17");
        for epoch in [0, 2, 9] {
            assert_eq!(one(&get_at(epoch, 5, 0, 1, &[])), "refused 18");
        }
    }

    #[test]
    fn refusals_of_a_filling_site() {
        let late = get(1, 0, GREATEST_END, &[]);
        assert_eq!(one(&late.replacen("get 0 0", "get 0 1", 1)), "refused 30");
        assert_eq!(after_set(&format!("{late}\nage 8")), ["ok", "refused 30"]);
        let pairs: Vec<u32> = (6..6 + MOST_TERMS).map(|n| 3 << n).collect();
        assert_eq!(one(&get(1, 0, 9, &pairs)), "refused 31");
        let senders = (0..=MOST_DATA as u32 + 1).filter(|&n| n != 5);
        let lines: Vec<String> = senders.map(|n| get(n, 0, 9 + u64::from(n), &[])).collect();
        let printed = after_set(&lines.join("\n"));
        assert!(printed[..MOST_DATA].iter().all(|line| line == "ok"));
        assert_eq!(printed[MOST_DATA..], ["refused 32"]);
    }

    #[test]
    fn lines_before_a_taken_set_are_bad_but_for_set() {
        let text =
            b"ask 0\nfewest\nage 7\nget 0 0\nset 29 0 0 0\nask 0\nnoise\nset 1 0 0 0\nask 0\n";
        let bad = "bad line\n";
        let printed = format!("{}refused 1\n{bad}{bad}ok\nopen\n", bad.repeat(4));
        assert_eq!(listing(text), printed);
    }

    #[test]
    fn refused_set_leaves_the_state_and_a_taken_one_starts_afresh() {
        let held = get(1, 3, 4, &[]);
        let text = format!("{held}\nset 5 1001 0 0\nask 0\nset 5 0 0 0\nask 0");
        assert_eq!(after_set(&text), ["ok", "refused 2", "between 3 4", "ok", "open"]);
    }

    #[test]
    fn lines_of_any_other_shape_are_bad() {
        let bad = "| |set|set 1 2|set 5 100 0|set 1 2 3 4 5|set 1 2 3 |age|age 8 9|get|get 0|ask|\
                   ask 0 0|fewest 0|fewest | fewest|Fewest|few|ok|bad line|ask  0|ask 0 | ask 0|\
                   ask\t0|ask 0\r|fewest\r|ask +0|ask -1|ask 0x1|ask 1_0|ask 1.0|ask a|\
                   ask \u{0661}|ask \0|ask 0\0";
        for line in bad.split('|') {
            assert_eq!(one(&format!("{line}\n")), "bad line", "{line:?}");
        }
        assert_eq!(listing(b"set 5 0 0 0\nask \xff\n\xff\xfe\n"), "ok\nbad line\nbad line\n");
    }

    #[test]
    fn fields_too_large_for_their_place_are_bad() {
        for line in [
            "set 4294967296 0 0 0",
            "set 0 4294967296 0 0",
            "set 0 0 18446744073709551616 0",
            "set 0 0 0 18446744073709551616",
            "age 18446744073709551616",
            "age 99999999999999999999",
            "get 18446744073709551616 0 9",
            "get 0 18446744073709551616 9",
            "get 0 0 4294967296",
            "ask 18446744073709551616",
        ] {
            assert_eq!(one(line), "bad line", "{line}");
        }
        assert_eq!(one("set 4294967295 0 0 0"), "refused 1");
        assert_eq!(one("set 0 4294967295 0 0"), "refused 2");
        assert_eq!(one("set 0 0 18446744073709551615 0"), "refused 3");
        assert_eq!(one("get 0 18446744073709551615 9"), "refused 21");
        assert_eq!(one("get 0 0 4294967295"), "refused 10");
    }

    #[test]
    fn zeros_may_lead_within_20_digits() {
        assert_eq!(one("ask 00000000000000000004"), "open");
        assert_eq!(one("ask 000000000000000000004"), "bad line");
        assert_eq!(one("set 00000000000000000028 00 0 00000000000000000015"), "ok");
    }

    #[test]
    fn lines_have_at_most_600_bytes() {
        for len in [LONGEST_LINE - 1, LONGEST_LINE, LONGEST_LINE + 1] {
            let wanted = if len > LONGEST_LINE { "bad line" } else { "refused 10" };
            let words = " 9".repeat((len - 7) / 2);
            let zero = if words.len() + 7 < len { "0" } else { "" };
            let line = format!("get 0 0{zero}{words}");
            assert_eq!(line.len(), len);
            assert_eq!(one(&line), wanted);
            assert_eq!(one(&format!("{line}\n")), wanted);
        }
        assert_eq!(one(&"x".repeat(100_000)), "bad line");
    }

    #[test]
    fn last_line_counts_without_a_line_feed_if_it_has_bytes() {
        assert_eq!(listing(b""), "");
        assert_eq!(listing(b"\n"), "bad line\n");
        assert_eq!(listing(b"x"), "bad line\n");
        assert_eq!(listing(b"set 1 0 0 0"), "ok\n");
        assert_eq!(listing(b"set 1 0 0 0\n"), "ok\n");
        assert_eq!(listing(b"set 1 0 0 0\n\n"), "ok\nbad line\n");
        assert_eq!(listing(b"set 1 0 0 0\nfewest"), "ok\nfewest 0 0\n");
    }
}
