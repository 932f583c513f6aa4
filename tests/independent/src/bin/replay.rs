//! Writes the fixed list of answers that the program `replay_cases` replays: `replay stdin` the cases, `replay stdout` what a right run prints.
//! Of many random modules it keeps the shortest for each refusal and for each combination of features, and lends it an output that is exact,
//! longer, or too short by one word. The list follows from the numbers below alone.

use independent::features::FEATURES;
use independent::generator::{self, Random};
use independent::{Verdict, judge_words, shown};
use std::collections::BTreeMap;

const SEED: u64 = 20_260;
const CANDIDATES: u64 = 300_000;
/// The modules that are kept of those that are refused with one number.
const REFUSED: u64 = 6;
/// What the program reads at most, with room for the headings.
const MOST_BYTES: usize = 64_000;

/// Modules alike in this take one place: the code, which of the refused ones it is, the features.
type Likeness = (u8, u64, u64);

fn main() {
    let cases = cases();
    match std::env::args().nth(1).as_deref() {
        Some("stdin") => cases.iter().for_each(|c| println!("{} # {}", c.line, c.title)),
        Some("stdout") => {
            cases.iter().for_each(|c| println!("ok    # {}", c.title));
            println!("{} cases, 0 wrong", cases.len());
        }
        _ => {
            eprintln!("replay stdin|stdout");
            std::process::exit(2);
        }
    }
}

struct Case {
    line: String,
    title: String,
}

fn cases() -> Vec<Case> {
    let mut shortest: BTreeMap<Likeness, (u64, Vec<u32>)> = BTreeMap::new();
    for index in 0..CANDIDATES {
        let (_, m) = generator::case(SEED, index);
        let likeness = match judge_words(&m) {
            Verdict::Refused(code) => (code, index % REFUSED, 0),
            Verdict::Accepted(r) => {
                let features = FEATURES.iter().enumerate().map(|(i, (_, has))| u64::from(has(&r)) << i).sum();
                (0, 0, features)
            }
        };
        let kept = shortest.entry(likeness).or_insert_with(|| (index, m.clone()));
        if m.len() < kept.1.len() {
            *kept = (index, m);
        }
    }
    // Refused ones first, then the shortest, as many as go in; none twice.
    let mut chosen: Vec<(Likeness, (u64, Vec<u32>))> = shortest.into_iter().collect();
    chosen.sort_by_key(|((code, ..), (index, m))| (*code == 0, m.len(), *index));
    chosen.dedup_by(|a, b| a.1.1 == b.1.1);
    let mut list: Vec<(u64, Case)> = chosen.iter().map(|(_, (index, m))| (*index, case(*index, m))).collect();
    let mut bytes = 0;
    list.retain(|(_, c)| {
        bytes += c.line.len() + c.title.len() + 4;
        bytes <= MOST_BYTES
    });
    list.sort_by_key(|(index, _)| *index);
    list.into_iter().map(|(_, c)| c).collect()
}

/// The words lent, the three numbers, the module and what it becomes.
fn case(index: u64, m: &[u32]) -> Case {
    let mut r = Random::new(SEED + 1, index);
    let (code, room, words, fresh) = match judge_words(m) {
        Verdict::Refused(code) => (code, r.below(40) as usize, Vec::new(), 0),
        Verdict::Accepted(a) => {
            let n = a.words.len();
            match r.below(10) {
                0 => (8, n - 1, Vec::new(), 0),
                1..6 => (0, n, a.words, a.fresh.len()),
                _ => (0, n + 1 + r.below(5) as usize, a.words, a.fresh.len()),
            }
        }
    };
    let expected = shown(&words);
    let line = format!("{room} {code} {} {fresh} {} => {expected}", words.len(), shown(m));
    Case { line: line.trim_end().to_string(), title: format!("{index}: {} words", m.len()) }
}
