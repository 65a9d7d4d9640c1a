//! compare [COUNT [FIRST]]: COUNT cases from number FIRST on, through the proved library and through the second
//! implementation. Answers, counts, every byte of every lent buffer and of the work area, and the inputs, which nothing may
//! change, must agree. Buffers hold random content before each call. A case that differs is printed with its number:
//! `compare 1 NUMBER` replays it.

use compare::call::{fault, Verb};
use compare::{Cases, LIBRARY, PEER};
use std::collections::BTreeMap;
use std::time::{Duration, Instant};

/// How often each value was returned, by call and set.
type Tally = BTreeMap<(Verb, Option<u8>), BTreeMap<u16, u64>>;

fn number(word: Option<String>, default: u64) -> u64 {
    match word {
        None => default,
        Some(word) => word.parse().unwrap_or_else(|_| {
            eprintln!("usage: compare [COUNT [FIRST]]");
            std::process::exit(2)
        }),
    }
}

/// A value returned: its answer number and, in brackets, a count that is not zero.
fn said(value: u16) -> String {
    match value / 256 {
        0 => value.to_string(),
        count => format!("{}({count})", value % 256),
    }
}

/// What each call answered, a line each.
fn show(tally: &Tally) {
    for ((verb, set), answers) in tally {
        let name = match set {
            Some(set) => format!("{} of set {set}", verb.name()),
            None => verb.name().into(),
        };
        let answers = answers
            .iter()
            .map(|(value, times)| format!("{}: {times}", said(*value)));
        let answers: Vec<String> = answers.collect();
        println!("  {name:16} {}", answers.join(", "));
    }
}

/// The values that a long run must have seen of each call: every answer number, setup's five windows, and some blocks.
fn wanted(verb: Verb) -> &'static [u16] {
    match verb {
        Verb::Setup => &[1, 2, 3, 4, 5, 6, 256, 512, 768, 1024, 1280],
        Verb::Seal => &[0, 1, 2, 9, 256, 512],
        Verb::Wrap => &[0, 1, 2, 9, 11, 256, 512],
        Verb::Open => &[0, 1, 2, 7, 8, 10],
        Verb::Unwrap => &[0, 1, 2, 7, 8, 10, 11],
        _ => &[0, 2],
    }
}

/// A value that a call never returned, if there is one. Set 1 is dear and may come up short.
fn missing(tally: &Tally) -> Option<String> {
    let mut cases = tally.iter().filter(|((_, set), _)| *set != Some(1));
    cases.find_map(|((verb, _), answers)| {
        let value = wanted(*verb).iter().find(|&value| !answers.contains_key(value))?;
        Some(format!("{} never answered {}", verb.name(), said(*value)))
    })
}

fn main() {
    let mut words = std::env::args().skip(1);
    let count = number(words.next(), 10000);
    let first = number(words.next(), 0);
    let mut cases = Cases::default();
    let mut tally = Tally::new();
    let mut shown = Instant::now();
    for number in first..first + count {
        let case = cases.case(number);
        let (library, peer) = (LIBRARY.make(&case.call), PEER.make(&case.call));
        let words = fault(&case.call, &library, &peer);
        if count == 1 || words.is_some() {
            println!("case {number}, {}: {}", case.call.verb.name(), case.call.kind);
        }
        if let Some(words) = words {
            println!("  {words}");
            println!("replay: make compare COUNT=1 FIRST={number}");
            std::process::exit(1);
        }
        *tally
            .entry((case.call.verb, case.set))
            .or_default()
            .entry(library.returned)
            .or_default() += 1;
        if shown.elapsed() > Duration::from_secs(5) {
            eprintln!("compare: {} of {count} cases agree", number - first + 1);
            shown = Instant::now();
        }
    }
    println!("compare: {count} cases agree; answers (counts in brackets) and how often they came:");
    show(&tally);
    if let Some(words) = (count >= 5000).then(|| missing(&tally)).flatten() {
        println!("compare: {words}");
        std::process::exit(1);
    }
}
