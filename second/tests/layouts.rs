//! docs/layouts.md, read as it stands, against bytes that the engine made: a state, messages and
//! answers are put together from the rows of its tables, each number at the bytes that its row
//! gives, and have to be what the calls write, to the last byte. So a row that is missing, moved or
//! of another size fails. The second program's own layout plays no part.

use second::clocks::{Readings, Triple};
use second::engine;
use std::fs;
use std::ops::Range;

// ---- the page and the header

fn file(name: &str) -> String {
    let path = format!("{}/../{name}", env!("CARGO_MANIFEST_DIR"));
    fs::read_to_string(&path).unwrap_or_else(|fault| panic!("{path}: {fault}"))
}

fn page() -> String {
    file("docs/layouts.md")
}

/// A number of monitor.h.
fn constant(name: &str) -> usize {
    let header = file("include/monitor.h");
    let define = format!("#define {name} ");
    let line = header.lines().find_map(|line| line.strip_prefix(&define));
    line.and_then(|value| value.parse().ok()).unwrap_or_else(|| panic!("monitor.h has no {name}"))
}

/// The numbers in a text, commas within them left out; 2^58 is one number.
fn numbers(text: &str) -> Vec<u64> {
    let words = text.split(|c: char| !(c.is_ascii_digit() || c == ',' || c == '^'));
    let number = |word: &str| -> Option<u64> {
        match word.replace(',', "").split_once('^') {
            Some((base, power)) => Some(base.parse::<u64>().ok()?.pow(power.parse().ok()?)),
            None => word.replace(',', "").parse().ok(),
        }
    };
    words.filter_map(number).collect()
}

/// The line of the page that begins so.
fn line<'a>(page: &'a str, begin: &str) -> &'a str {
    let found = page.lines().find(|line| line.starts_with(begin));
    found.unwrap_or_else(|| panic!("docs/layouts.md has no line that begins with '{begin}'"))
}

/// The cells of the table that follows a line which begins so, without its header row.
fn cells<'a>(page: &'a str, begin: &str) -> Vec<Vec<&'a str>> {
    let behind = page.lines().skip_while(|line| !line.starts_with(begin));
    let table = behind.skip_while(|line| !line.starts_with('|')).take_while(|l| l.starts_with('|'));
    let table = table.map(|row| row.trim_matches('|').split('|').map(str::trim).collect());
    let table: Vec<_> = table.skip(2).collect();
    assert!(!table.is_empty(), "docs/layouts.md has no table behind '{begin}'");
    table
}

/// A row of bytes: where they stand, and what.
struct Row<'a> {
    bytes: Range<usize>,
    what: &'a str,
}

/// The rows of a table of bytes; together they cover so many, each once and in their order.
fn rows<'a>(page: &'a str, begin: &str, size: usize) -> Vec<Row<'a>> {
    let mut end = 0;
    let row = |cells: Vec<&'a str>| {
        let [bytes, what] = cells[..] else { panic!("{begin}: a row of {cells:?}") };
        let [first, last] = numbers(bytes)[..] else { panic!("{begin}: bytes {bytes}") };
        let bytes = first as usize..last as usize + 1;
        assert_eq!(bytes.start, end, "{begin}: where the row '{what}' begins");
        assert!(bytes.start < bytes.end, "{begin}: the row '{what}' has no byte");
        end = bytes.end;
        Row { bytes, what }
    };
    let rows: Vec<Row> = cells(page, begin).into_iter().map(row).collect();
    assert_eq!(end, size, "{begin}: where its last row ends");
    rows
}

/// The row whose text begins so.
fn row<'a, 'b>(rows: &'b [Row<'a>], begin: &str) -> &'b Row<'a> {
    let found: Vec<_> = rows.iter().filter(|row| row.what.starts_with(begin)).collect();
    assert_eq!(found.len(), 1, "rows of docs/layouts.md that begin with '{begin}'");
    found[0]
}

impl Row<'_> {
    /// How many things of how many bytes each it has, as '16 data of 60 bytes' says; they fill it.
    fn parts(&self) -> (usize, usize) {
        let words = self.what.replace("sixteen", "16").replace("eight", "8");
        let (count, size) = words.split_once(" of ").expect("things of bytes");
        let (count, size) = (numbers(count)[0] as usize, numbers(size)[0] as usize);
        assert_eq!(count * size, self.bytes.len(), "the bytes of '{}'", self.what);
        (count, size)
    }

    /// The greatest number that it may have, as '0 to 28' or 'below 2^58' says.
    fn greatest(&self) -> u64 {
        match self.what.split_once("below ") {
            Some((_, limit)) => numbers(limit)[0] - 1,
            None => numbers(self.what.split_once(" to ").expect("a range").1)[0],
        }
    }

    /// Puts a number, the lowest byte first, where the row stands behind a place.
    fn put(&self, bytes: &mut [u8], behind: usize, number: u64) {
        put(bytes, behind + self.bytes.start, self.bytes.len(), number);
    }
}

fn put(bytes: &mut [u8], at: usize, size: usize, number: u64) {
    let number = number.to_le_bytes();
    assert!(number[size..].iter().all(|&byte| byte == 0), "{number:?} in {size} bytes");
    bytes[at..at + size].copy_from_slice(&number[..size]);
}

/// Both are the same bytes; the first that is not is named.
fn same(what: &str, engine: &[u8], page: &[u8]) {
    assert_eq!(engine.len(), page.len(), "{what}: bytes");
    let other = (0..page.len()).find(|&i| engine[i] != page[i]);
    let said = other.map(|i| (i, engine[i], page[i]));
    assert_eq!(
        said, None,
        "{what}: byte, what the engine has there, and what docs/layouts.md says"
    );
}

/// The place and step of 'from 24 + 60 × i on', in the line that begins so.
fn place_and_step(page: &str, begin: &str) -> (usize, usize) {
    let [place, step, ..] = numbers(line(page, begin))[..] else { panic!("{begin}: from where?") };
    (place as usize, step as usize)
}

const STATE: &str = "## The state: ";
const DATUM: &str = "A datum, from ";
const ENTRY: &str = "An entry, from ";
const CLOCK: &str = "The clock of identifier n, from ";
const ASK: &str = "## `monitor_ask`: ";
const FEWEST: &str = "## `monitor_fewest`: ";
const READ: &str = "## `monitor_message_read`: ";

/// The size in a heading.
fn size(page: &str, begin: &str) -> usize {
    numbers(&line(page, begin)[begin.len()..])[0] as usize
}

// ---- messages, put together from the page

/// What a message says; each identifier that it names with its epoch, rising.
struct Message<'a> {
    sender: u64,
    epochs: &'a [(u64, u64)],
    /// Left and right, or the centre and the half width.
    pair: [u64; 2],
    terms: &'a [u64],
}

/// The bits that a payload gives to a field, as 'sender in bits 0–4' and 'bits 10–28 zero' do.
fn bits(payload: &str, field: &str) -> Range<u32> {
    let behind = payload.split_once(field).unwrap_or_else(|| panic!("no {field} in '{payload}'")).1;
    let behind = behind.split_once("bits ").map_or(behind, |(_, behind)| behind);
    let [first, last, ..] = numbers(behind)[..] else {
        panic!("no bits of {field} in '{payload}'")
    };
    first as u32..last as u32 + 1
}

/// The payload with these numbers in its fields; with the zeros they fill its bits.
fn packed(payload: &str, fields: &[(&str, u64)], payload_bits: u32) -> u64 {
    let mut end = 0;
    let mut word = 0;
    for &(field, number) in fields {
        let bits = bits(payload, field);
        assert_eq!(bits.start, end, "the bits of {field} in '{payload}'");
        assert_eq!(number >> bits.len(), 0, "{field} {number} in {} bits", bits.len());
        word |= number << bits.start;
        end = bits.end;
    }
    let zeros = payload.rsplit_once(", bits ").expect("bits that are zero").1;
    assert!(zeros.ends_with(" zero"), "'{payload}'");
    let [first, last] = numbers(zeros)[..] else { panic!("'{payload}'") };
    assert_eq!((first as u32, last as u32 + 1), (end, payload_bits), "the zeros of '{payload}'");
    word
}

/// The words of a message by the page's table, in 'ends form' or 'centre form'.
fn words(page: &str, form: &str, message: &Message) -> Vec<u32> {
    let intro = line(page, "Four bytes make a 32-bit word: ");
    let [_, kind_bits, payload_bits, ..] = numbers(intro)[..] else { panic!("'{intro}'") };
    assert_eq!(kind_bits + payload_bits, 32);
    let low = (1u64 << payload_bits) - 1;
    let (e, terms) = (message.epochs.len(), message.terms.len());
    let other = if form == "ends form" { "centre form: " } else { "ends form: " };
    let table = cells(page, "The words in their order");
    let table: Vec<_> = table.into_iter().filter(|row| !row[2].starts_with(other)).collect();
    let mut words: Vec<(usize, u32)> = vec![];
    for cells in &table {
        let [place, kind, payload] = cells[..] else { panic!("a row of {cells:?}") };
        let said = payload.strip_prefix(&format!("{form}: ")).unwrap_or(payload);
        let two = |number: u64| {
            assert!(said.ends_with("high 29 bits then low"), "'{said}'");
            vec![number >> payload_bits, number & low]
        };
        let payloads = match said.split([',', ':']).next().expect("a text") {
            "head" => {
                let fields = [("sender", message.sender), ("term count", terms as u64)];
                vec![packed(payload, &fields, payload_bits as u32)]
            }
            "epoch words" => {
                let greatest = constant("MONITOR_GREATEST_EPOCH");
                assert_eq!(1 << bits(payload, "epoch (").len(), greatest + 1, "bits of an epoch");
                let word = |&(identifier, epoch): &(u64, u64)| {
                    let fields = [("identifier", identifier), ("epoch (", epoch)];
                    packed(payload, &fields, payload_bits as u32)
                };
                message.epochs.iter().map(word).collect()
            }
            "left end" | "the centre" => two(message.pair[0]),
            "right end" => two(message.pair[1]),
            "the half width" => vec![message.pair[1]],
            "the terms" => message.terms.to_vec(),
            "the sum of all earlier words" => {
                let sum = words.iter().fold(0, |sum: u32, &(_, word)| sum.wrapping_add(word));
                vec![u64::from(sum) % numbers(said)[0]]
            }
            _ => panic!("what is '{said}'?"),
        };
        // Where they stand: '0', '1 to e', 'e + 1, e + 2', 'from e + 5' or 'last'.
        let behind = |place: &str| numbers(place)[0] as usize;
        let places: Vec<usize> = match place {
            "0" => vec![0],
            "1 to e" => (1..=e).collect(),
            "last" => vec![words.len()],
            _ => match place.strip_prefix("from e + ") {
                Some(first) => (0..terms).map(|i| e + behind(first) + i).collect(),
                None => place.split(", ").map(|each| e + behind(each)).collect(),
            },
        };
        assert_eq!(places.len(), payloads.len(), "the words of '{said}'");
        let kind: u64 = kind.parse().expect("a kind");
        let word = |payload: u64| (kind << payload_bits | payload) as u32;
        words.extend(places.into_iter().zip(payloads.into_iter().map(word)));
    }
    let places: Vec<usize> = words.iter().map(|&(place, _)| place).collect();
    assert_eq!(places, (0..words.len()).collect::<Vec<_>>(), "the places of the words, {form}");
    words.into_iter().map(|(_, word)| word).collect()
}

fn bytes(words: &[u32]) -> Vec<u8> {
    words.iter().flat_map(|word| word.to_le_bytes()).collect()
}

fn in_ends_form(page: &str, message: &Message) -> Vec<u8> {
    bytes(&words(page, "ends form", message))
}

// ---- a state that the engine made

/// Own identifier, drift, reading and epoch.
const OWN: (u32, u32, u64, u64) = (5, 100, 7_000_000, 3);
/// How long the state is aged then.
const AGED: u64 = 10;

/// Of 1, with terms and epochs; of 6; and of 28, the last identifier. No two intervals meet.
const FIRST: Message = Message {
    sender: 1,
    epochs: &[(1, 2), (2, 1), (3, 0), (4, 15)],
    pair: [1_000, 2_000],
    terms: &[1 << 2 | 1 << 3, 1 << 4],
};
const SECOND: Message = Message { sender: 6, epochs: &[(6, 0)], pair: [5_000, 6_000], terms: &[] };
const THIRD: Message = Message {
    sender: 28,
    epochs: &[(7, 0), (8, 0), (28, 1)],
    pair: [9_000, 9_100],
    terms: &[1 << 7 | 1 << 8],
};
/// Readings of 6, one after the other: the first has the largest b − a + w, the second the largest
/// a − b + w. Then one of 28.
const OF_SIX: [[u64; 3]; 3] = [[100, 200, 50], [300, 380, 60], [400, 490, 55]];
const OF_LAST: [u64; 3] = [1_000, 1_001, 2];

/// A lent buffer, with bytes beyond what a call may write.
fn lent(size: usize) -> Vec<u8> {
    vec![0xa5; size + 3]
}

fn taken(number: u32) {
    assert_eq!(number, 0, "a call was refused");
}

fn readings([a, b, w]: [u64; 3]) -> Readings {
    Readings { triple: Triple::of(a, b, w), drift: 0 }
}

/// The engine's state after all of that; what is lent beyond it stays.
fn real_state(page: &str) -> Vec<u8> {
    let size = constant("MONITOR_STATE_BYTES");
    let mut state = lent(size);
    let (own, drift, reading, epoch) = OWN;
    taken(engine::monitor_set_up(&mut state, own, drift, reading, epoch));
    taken(engine::monitor_receive(&mut state, 1, 3, &in_ends_form(page, &FIRST)));
    let second = in_ends_form(page, &SECOND);
    for each in OF_SIX {
        let readings = readings(each);
        taken(engine::monitor_receive_with_readings(&mut state, 0, 0, readings, &second));
    }
    let (third, readings) = (in_ends_form(page, &THIRD), readings(OF_LAST));
    taken(engine::monitor_receive_with_readings(&mut state, 0, 0, readings, &third));
    taken(engine::monitor_age(&mut state, reading + AGED));
    assert_eq!(state.split_off(size), [0xa5; 3], "the bytes beyond the state");
    state
}

/// The whole microseconds and the millionths of both ends: of a message that was on its way so long
/// at least and at most, and aged.
fn ends(message: &Message, least: u64, greatest: u64) -> [(u64, u64); 2] {
    let drift = u64::from(OWN.1);
    let left = message.pair[0] * 1_000_000 + (least + AGED) * (1_000_000 - drift);
    let right = message.pair[1] * 1_000_000 + (greatest + AGED) * (1_000_000 + drift);
    [left, right].map(|end| (end / 1_000_000, end % 1_000_000))
}

/// The predicates of what the three messages say: their terms and their sender, as masks.
const HELD: [&[u64]; 3] = [&[2, 12, 16], &[64], &[384, 1 << 28]];
/// And of each two that do not meet, in the order in which they came.
const ENTRIES: [&[u64]; 3] = [&[2, 12, 16, 64], &[2, 12, 16, 384, 1 << 28], &[64, 384, 1 << 28]];

/// Puts a count of terms and their masks, in a datum or in an entry.
fn put_terms(state: &mut [u8], rows: &[Row], behind: usize, masks_row: &str, terms: &[u64]) {
    row(rows, "term count, ").put(state, behind, terms.len() as u64);
    let masks = row(rows, masks_row);
    let (_, size) = masks.parts();
    for (i, &mask) in terms.iter().enumerate() {
        put(state, behind + masks.bytes.start + size * i, size, mask);
    }
}

/// The same state, put together from the page.
fn state_by_page(page: &str) -> Vec<u8> {
    let mut state = vec![0; size(page, STATE)];
    let head = rows(page, STATE, state.len());
    let (own, drift, reading, epoch) = OWN;
    row(&head, "own identifier").put(&mut state, 0, own.into());
    row(&head, "drift").put(&mut state, 0, drift.into());
    row(&head, "the last reading").put(&mut state, 0, reading + AGED);
    row(&head, "held count").put(&mut state, 0, HELD.len() as u64);
    row(&head, "entry count").put(&mut state, 0, ENTRIES.len() as u64);

    let (place, step) = place_and_step(page, DATUM);
    let datum = rows(page, DATUM, step);
    let said = [ends(&FIRST, 1, 3), ends(&SECOND, 0, 0), ends(&THIRD, 0, 0)];
    for (i, ([left, right], terms)) in said.into_iter().zip(HELD).enumerate() {
        let at = place + step * i;
        row(&datum, "left end, whole microseconds").put(&mut state, at, left.0);
        row(&datum, "right end, whole microseconds").put(&mut state, at, right.0);
        row(&datum, "left end, its millionths").put(&mut state, at, left.1);
        row(&datum, "right end, its millionths").put(&mut state, at, right.1);
        put_terms(&mut state, &datum, at, "eight masks", terms);
    }

    let (place, step) = place_and_step(page, ENTRY);
    let entry = rows(page, ENTRY, step);
    for (i, terms) in ENTRIES.into_iter().enumerate() {
        put_terms(&mut state, &entry, place + step * i, "sixteen masks", terms);
    }

    let (place, step) = place_and_step(page, CLOCK);
    let clock = rows(page, CLOCK, step);
    let triples = [(6, [OF_SIX[2], OF_SIX[1], OF_SIX[0]]), (28, [OF_LAST; 3])];
    for (identifier, [previous, ahead, behind]) in triples {
        let at = place + step * identifier;
        row(&clock, "0, and all behind it is zero; or 1").put(&mut state, at, 1);
        let texts = [
            "the previous triple",
            "the one with the largest a − b + w",
            "the one with the largest b − a + w",
        ];
        for (text, triple) in texts.into_iter().zip([previous, ahead, behind]) {
            let row = row(&clock, text);
            assert_eq!(row.bytes.len(), 3 * 8, "'{text}': three numbers, 8 bytes each");
            for (i, number) in triple.into_iter().enumerate() {
                put(&mut state, at + row.bytes.start + 8 * i, 8, number);
            }
        }
    }

    let epochs = &row(&head, "29 known epochs").bytes;
    let heard = [FIRST.epochs, SECOND.epochs, THIRD.epochs].concat();
    for (identifier, epoch) in heard.into_iter().chain([(own.into(), epoch)]) {
        state[epochs.start + identifier as usize] = epoch as u8;
    }
    state
}

// ---- the tests

#[test]
fn a_state_of_the_engine_is_what_the_rows_say_byte_for_byte() {
    let page = page();
    same("the state", &real_state(&page), &state_by_page(&page));
}

#[test]
fn sizes_in_headings_are_those_of_the_header() {
    let page = page();
    let named = [
        (STATE, "MONITOR_STATE_BYTES"),
        (ASK, "MONITOR_ANSWER_BYTES"),
        (FEWEST, "MONITOR_FEWEST_BYTES"),
        (READ, "MONITOR_READING_BYTES"),
    ];
    for (heading, name) in named {
        assert_eq!(size(&page, heading), constant(name), "'{heading}' and {name}");
        rows(&page, heading, constant(name));
    }
}

/// The state's rows of data, entries, clocks and epochs are as many as fit, each as long as its own
/// table says; counts have room for all of them.
#[test]
fn tables_within_the_state_fill_its_rows() {
    let page = page();
    let head = rows(&page, STATE, size(&page, STATE));
    let names = constant("MONITOR_GREATEST_NAME") + 1;
    let terms = constant("MONITOR_MOST_TERMS");
    for (what, table) in [("16 data", DATUM), ("32 entries", ENTRY), ("29 places", CLOCK)] {
        let row = row(&head, what);
        assert_eq!((row.bytes.start, row.parts().1), place_and_step(&page, table), "'{table}'");
        rows(&page, table, row.parts().1);
    }
    let count = |begin: &str| row(&head, begin).parts().0;
    assert_eq!(row(&head, "held count").greatest() as usize, count("16 data"));
    assert_eq!(row(&head, "entry count").greatest() as usize, count("32 entries"));
    assert_eq!((count("29 places"), count("29 known epochs")), (names, names));
    let limit = |table: &str, masks: &str| {
        let rows = rows(&page, table, place_and_step(&page, table).1);
        assert_eq!(row(&rows, "term count").greatest() as usize, row(&rows, masks).parts().0);
        row(&rows, masks).parts().0
    };
    let limits = (limit(DATUM, "eight masks"), limit(ENTRY, "sixteen masks"));
    assert_eq!(limits, (terms, 2 * terms));
}

/// The greatest number that a row gives is in form, and the next one is not.
#[test]
fn ranges_of_rows_are_those_of_the_form() {
    let page = page();
    let head = rows(&page, STATE, size(&page, STATE));
    let (datum_at, datum_size) = place_and_step(&page, DATUM);
    let datum = rows(&page, DATUM, datum_size);
    let mut fresh = vec![0; size(&page, STATE)];
    taken(engine::monitor_set_up(&mut fresh, 0, 0, 0, 0));
    let mut held = fresh.clone();
    taken(engine::monitor_receive(&mut held, 0, 0, &in_ends_form(&page, &SECOND)));
    let known = row(&head, "29 known epochs");
    let epoch = Row { bytes: known.bytes.end - 1..known.bytes.end, what: known.what };
    let tried = [
        (&fresh, row(&head, "own identifier"), 0, constant("MONITOR_GREATEST_NAME") as u64),
        (&fresh, row(&head, "drift"), 0, constant("MONITOR_GREATEST_DRIFT") as u64),
        (&fresh, row(&head, "the last reading"), 0, (1 << 58) - 1),
        (&fresh, &epoch, 0, constant("MONITOR_GREATEST_EPOCH") as u64),
        (&held, row(&datum, "left end, its millionths"), datum_at, 999_999),
    ];
    for (state, row, behind, greatest) in tried {
        assert_eq!(row.greatest(), greatest, "'{}'", row.what);
        let number = |number: u64| {
            let mut state = state.clone();
            row.put(&mut state, behind, number);
            engine::monitor_fewest(&state, &mut [0; 16])
        };
        assert_eq!((number(greatest), number(greatest + 1)), (0, 25), "'{}'", row.what);
    }
}

/// 'the oldest datum's bytes are 0 (24–31), 11 (32–39), ..' of a message [0, 10] aged by 1.
#[test]
fn the_example_of_ends_is_right() {
    let page = page();
    let text = page.split("the oldest datum's bytes are ").nth(1).expect("the example");
    let text = text.split("\n\n").next().expect("a paragraph");
    let mut state = vec![0; size(&page, STATE)];
    taken(engine::monitor_set_up(&mut state, 5, 100, 0, 0));
    let message = Message { sender: 1, epochs: &[(1, 0)], pair: [0, 10], terms: &[] };
    taken(engine::monitor_receive(&mut state, 0, 0, &in_ends_form(&page, &message)));
    taken(engine::monitor_age(&mut state, 1));
    let numbers = numbers(text);
    let (said, rest) = numbers.as_chunks();
    assert!(said.len() == 4 && rest.is_empty(), "four numbers with their bytes: {numbers:?}");
    for &[number, first, last] in said {
        let mut bytes = [0; 8];
        let place = first as usize..last as usize + 1;
        bytes[..place.len()].copy_from_slice(&state[place]);
        assert_eq!(u64::from_le_bytes(bytes), number, "bytes {first}–{last}");
    }
}

#[test]
fn answers_stand_where_the_rows_say() {
    let page = page();
    let state = real_state(&page);
    // A call's output, put together from its table.
    let by_page = |heading: &str, numbers: &[(&str, u64)]| {
        let size = size(&page, heading);
        let rows = rows(&page, heading, size);
        assert_eq!(rows.len(), numbers.len(), "the rows of {heading}");
        let mut out = lent(size);
        for &(what, number) in numbers {
            row(&rows, what).put(&mut out, 0, number);
        }
        out
    };
    let between = |kind, left, right| {
        let numbers = [
            ("kind of answer: 0 contradicted, 1 open, 2 between", kind),
            ("between: the least instant that counts", left),
            ("between: the greatest one", right),
        ];
        by_page(ASK, &numbers)
    };
    // One of the three is right, and two have failed, one of those that are to blame for each.
    let [(least, _), _] = ends(&FIRST, 1, 3);
    let [_, (greatest, _)] = ends(&THIRD, 0, 0);
    let asked =
        [(1, between(0, 0, 0)), (2, between(2, least, greatest + 1)), (3, between(1, 0, 0))];
    for (limit, by_page) in asked {
        let mut out = lent(constant("MONITOR_ANSWER_BYTES"));
        taken(engine::monitor_ask(&state, limit, &mut out));
        same(&format!("ask {limit}"), &out, &by_page);
    }
    let mut out = lent(constant("MONITOR_FEWEST_BYTES"));
    taken(engine::monitor_fewest(&state, &mut out));
    let numbers = [("how many names", 2), ("its mask", 1 << 1 | 1 << 6)];
    same("fewest", &out, &by_page(FEWEST, &numbers));
    let mut out = lent(constant("MONITOR_READING_BYTES"));
    taken(engine::monitor_message_read(&in_ends_form(&page, &FIRST), &mut out));
    let numbers = [("sender", 1), ("left end", 1_000), ("right end", 2_000), ("term count", 2)];
    same("message_read", &out, &by_page(READ, &numbers));
}

/// What `monitor_write` writes of the first datum, and what `monitor_message_rewrite` makes of
/// centre form.
#[test]
fn messages_of_the_engine_are_what_the_words_say() {
    let page = page();
    let [(left, _), (right, _)] = ends(&FIRST, 1, 3);
    let written = Message {
        sender: OWN.0.into(),
        epochs: &[(1, 2), (2, 1), (3, 0), (4, 15), (5, OWN.3)],
        pair: [left, right + 1],
        terms: HELD[0],
    };
    let by_page = in_ends_form(&page, &written);
    let mut out = lent(by_page.len());
    taken(engine::monitor_write(&real_state(&page), 0, &mut out));
    same("write", &out, &[&by_page[..], &[0xa5; 3]].concat());

    // An end of more than 29 bits, so that high and low can be told apart; and the greatest bit of
    // a payload is set in one word alone, so that it is in the check word too.
    let (centre, half) = (3 << 29 | 1 << 28 | 5, 7);
    let message = |pair| Message { pair, ..FIRST };
    let in_centre_form = bytes(&words(&page, "centre form", &message([centre, half])));
    let by_page = in_ends_form(&page, &message([centre - half, centre + half]));
    let mut out = lent(by_page.len());
    taken(engine::monitor_message_rewrite(&in_centre_form, &mut out));
    same("message_rewrite", &out, &[&by_page[..], &[0xa5; 3]].concat());
}

/// The shortest and the longest message of each form are taken, and have the words and bytes that
/// the page and the header give.
#[test]
fn sizes_of_messages_are_right() {
    let page = page();
    let all: Vec<(u64, u64)> = (0..29).map(|n| (n, n % 16)).collect();
    let terms: Vec<u64> = (0..8).map(|i| if i < 7 { 15 << (4 * i) } else { 1 << 28 }).collect();
    let shortest = Message { sender: 0, epochs: &all[..1], pair: [9, 9], terms: &[] };
    let longest = Message { sender: 0, epochs: &all, pair: [9, 9], terms: &terms };
    let mut sizes = vec![];
    for form in ["ends form", "centre form"] {
        let counts = [&shortest, &longest].map(|message| {
            let message = words(&page, form, message);
            taken(engine::monitor_message_read(&bytes(&message), &mut [0; 32]));
            message.len() as u64
        });
        sizes.extend(counts.into_iter().chain(counts.map(|words| 4 * words)));
    }
    let said = numbers(line(&page, "Ends form has "));
    assert_eq!(said[..8], sizes, "words and bytes of ends form, then of centre form");
    let limits = [constant("MONITOR_LEAST_WORDS"), constant("MONITOR_MOST_WORDS")];
    assert_eq!(limits.map(|words| words as u64), [sizes[4], sizes[1]]);
    let said = numbers(page.split("without terms, up to ").nth(1).expect("a rewritten message"))[0];
    assert_eq!(said, sizes[3], "the bytes of the longest that is rewritten");
}
