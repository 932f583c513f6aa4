//! Compares two calls on bytes with what the independent implementation says: the number returned, every word written and every byte not
//! written, with outputs of many lengths. Counts what was tried, and makes a module that differs smaller.

use crate::features::FEATURES;
use crate::generator::{Origin, Random};
use crate::{MOST_WORDS, Verdict, bytes_of, judge, kind, packed, payload, shown, word, words_of};
use std::fmt::Write as _;

/// A call that is compared: a module's bytes, and the output.
pub type Entry = fn(&[u8], &mut [u8]) -> u64;

#[derive(Clone, Copy)]
pub struct Entries {
    pub rewrite: Entry,
    pub report: Entry,
}

/// How long an output is against the answer; nothing stands for the answer to a refused module.
#[derive(Clone, Copy)]
enum Lent {
    None,
    Shorter,
    Exact,
    Longer(usize),
}

impl Lent {
    /// The words lent for an answer of n words. None is shorter than no words.
    fn words(self, n: usize) -> Option<usize> {
        match self {
            Lent::None => Some(0),
            Lent::Shorter => n.checked_sub(1),
            Lent::Exact => Some(n),
            Lent::Longer(more) => Some(n + more),
        }
    }
}

pub struct Comparison {
    entries: Entries,
    pub counts: Counts,
    buffer: Vec<u8>,
    before: Vec<u8>,
}

/// Bytes behind the output that must stay as they are.
const GUARD: usize = 16;

impl Comparison {
    pub fn new(entries: Entries) -> Comparison {
        Comparison { entries, counts: Counts::default(), buffer: Vec::new(), before: Vec::new() }
    }

    /// A difference, with the module and a smaller one that differs too.
    pub fn explained(&self, m: &[u32], difference: &str, origin: &str) -> String {
        let small = shrunk(m, self.entries);
        let d = Comparison::new(self.entries).with_all_lengths(&bytes_of(&small)).err().unwrap_or_else(|| difference.to_string());
        format!("DIFFERENCE ({origin})\n{difference}\nmodule: {}\nshrunk: {}\n{d}", shown(m), shown(&small))
    }

    /// A module with an output of the exact length, with one word less, and with a length drawn from `r`; now and then with bytes that make no
    /// word.
    pub fn case(&mut self, m: &[u32], origin: Origin, r: &mut Random) -> Result<(), String> {
        let mut bytes = bytes_of(m);
        if r.below(500) == 0 {
            let n = 1 + r.below(3);
            bytes.extend((0..n).map(|_| r.draw() as u8));
            self.counts.odd_input += 1;
        }
        self.counts.origins[origin as usize] += 1;
        let odd = r.below(4) as usize;
        let drawn = match r.below(200) {
            0 => Lent::Longer(13_000),
            1..60 => Lent::Longer(1),
            60..100 => Lent::None,
            _ => Lent::Longer(2 + r.below(40) as usize),
        };
        self.compare(&bytes, &[Lent::Exact, Lent::Shorter, drawn], odd)
    }

    /// A module with every length and every number of odd bytes.
    pub fn with_all_lengths(&mut self, bytes: &[u8]) -> Result<(), String> {
        let lengths = [Lent::Exact, Lent::Shorter, Lent::None, Lent::Longer(1), Lent::Longer(40), Lent::Longer(13_000)];
        (0..4).try_for_each(|odd| self.compare(bytes, &lengths, odd))
    }

    /// Both calls on a module, `odd` bytes behind each length.
    fn compare(&mut self, bytes: &[u8], lengths: &[Lent], odd: usize) -> Result<(), String> {
        let verdict = judge(bytes);
        self.counts.count(bytes, &verdict);
        let (code, words, report) = match &verdict {
            Verdict::Refused(code) => (*code, &[][..], Vec::new()),
            Verdict::Accepted(r) => (0, &r.words[..], r.report()),
        };
        let Entries { rewrite, report: report_entry } = self.entries;
        let entries: [(&str, Entry, &[u32]); 2] = [("rewrite", rewrite, words), ("report", report_entry, &report)];
        for (name, entry, expected) in entries {
            for lent in lengths {
                let Some(length) = lent.words(expected.len()) else { continue };
                let code = if code == 0 && length < expected.len() { 8 } else { code };
                let written: &[u32] = if code == 0 { expected } else { &[] };
                let number = packed(code, written.len(), if code == 0 { report.len() } else { 0 });
                self.counts.call(code, *lent);
                self.one_call(entry, bytes, 4 * length + odd, number, written, name == "report")
                    .map_err(|d| format!("{name} with {length} words and {odd} bytes lent: {d}"))?;
            }
        }
        Ok(())
    }

    fn one_call(&mut self, entry: Entry, bytes: &[u8], lent: usize, number: u64, expected: &[u32], any_order: bool) -> Result<(), String> {
        let start = lent % 5;
        let end = start + lent;
        self.buffer.clear();
        self.buffer.extend((0..end + GUARD).map(|i| (i * 37 + lent) as u8 ^ 0xa5));
        self.before.clone_from(&self.buffer);
        let got = entry(bytes, &mut self.buffer[start..end]);
        if got != number {
            return Err(format!("answered {}, expected {}\nexpected words: {}", numbers(got), numbers(number), shown(expected)));
        }
        let written = start + 4 * expected.len();
        let mut words = words_of(&self.buffer[start..written]);
        if any_order {
            words.sort_unstable_by_key(|w| payload(*w));
        }
        if words != expected {
            return Err(format!("wrote    {}\nexpected {}", shown(&words), shown(expected)));
        }
        if self.buffer[..start] != self.before[..start] || self.buffer[written..] != self.before[written..] {
            let at = (written..end + GUARD).find(|i| self.buffer[*i] != self.before[*i]).unwrap_or(0);
            return Err(format!("byte {} of {lent} was changed, {} words expected", at as isize - start as isize, expected.len()));
        }
        Ok(())
    }
}

fn numbers(n: u64) -> String {
    format!("{} {} {}", n & 0xff, n >> 8 & 0xfff_ffff, n >> 36)
}

/// What was tried.
#[derive(Default)]
pub struct Counts {
    pub modules: u64,
    words: u64,
    calls: u64,
    origins: [u64; 5],
    /// Modules by refusals 1 to 7, accepted ones at 0.
    verdicts: [u64; 8],
    /// Calls by the code expected.
    answers: [u64; 9],
    /// Calls by the words lent: none, one too few, as many as the answer has, one more, more.
    lent: [u64; 5],
    odd_input: u64,
    longest_output: usize,
    most_fresh: usize,
    most_classes_deep: u32,
    depths: [u64; 4],
    lengths: [u64; 3],
    with: [u64; FEATURES.len()],
}

impl Counts {
    fn call(&mut self, code: u8, lent: Lent) {
        self.calls += 1;
        self.answers[code as usize] += 1;
        let n = match lent {
            Lent::None => 0,
            Lent::Shorter => 1,
            Lent::Exact => 2,
            Lent::Longer(1) => 3,
            Lent::Longer(_) => 4,
        };
        self.lent[n] += 1;
    }

    fn count(&mut self, bytes: &[u8], verdict: &Verdict) {
        self.modules += 1;
        let words = words_of(bytes);
        self.words += words.len() as u64;
        if let Some(n) = (MOST_WORDS - 1..MOST_WORDS + 2).position(|n| n == words.len()) {
            self.lengths[n] += 1;
        }
        let depth = deepest(&words);
        if let Some(n) = (63..67).position(|d| d == depth) {
            self.depths[n] += 1;
        }
        match verdict {
            Verdict::Refused(code) => self.verdicts[*code as usize] += 1,
            Verdict::Accepted(r) => {
                self.verdicts[0] += 1;
                self.longest_output = self.longest_output.max(r.words.len());
                self.most_fresh = self.most_fresh.max(r.fresh.len());
                self.most_classes_deep = self.most_classes_deep.max(r.seen.deepest_class);
                for (count, (_, f)) in self.with.iter_mut().zip(FEATURES) {
                    *count += u64::from(f(r));
                }
            }
        }
    }

    pub fn text(&self) -> String {
        let mut t = String::new();
        let line = |t: &mut String, name: &str, n: u64| writeln!(t, "  {n:>12}  {name}").unwrap();
        writeln!(t, "{} modules, {} words, {} calls, no difference", self.modules, self.words, self.calls).unwrap();
        writeln!(t, "modules by origin").unwrap();
        for (name, n) in ["exhaustive", "random, good", "random, deep", "random, large", "random, damaged"].iter().zip(self.origins) {
            line(&mut t, name, n);
        }
        writeln!(t, "modules by refusal").unwrap();
        for (code, n) in self.verdicts.iter().enumerate() {
            line(&mut t, if code == 0 { "accepted".into() } else { format!("refused with {code}") }.as_str(), *n);
        }
        writeln!(t, "calls by code answered").unwrap();
        for (code, n) in self.answers.iter().enumerate() {
            line(&mut t, &code.to_string(), *n);
        }
        writeln!(t, "calls by the words lent").unwrap();
        for (name, n) in ["none", "one too few", "exactly as many as the answer has", "one more", "several more"].iter().zip(self.lent) {
            line(&mut t, name, n);
        }
        writeln!(t, "modules at a boundary").unwrap();
        for (n, d) in self.depths.iter().zip(63..) {
            line(&mut t, &format!("deepest record at {d}"), *n);
        }
        for (n, l) in self.lengths.iter().zip(MOST_WORDS - 1..) {
            line(&mut t, &format!("{l} words"), *n);
        }
        line(&mut t, "bytes not a multiple of 4", self.odd_input);
        writeln!(t, "accepted modules with").unwrap();
        for (n, (name, _)) in self.with.iter().zip(FEATURES) {
            line(&mut t, name, *n);
        }
        writeln!(t, "at most").unwrap();
        line(&mut t, "words written", self.longest_output as u64);
        line(&mut t, "fresh symbols", self.most_fresh as u64);
        line(&mut t, "classes in one another", u64::from(self.most_classes_deep));
        t
    }
}

/// How many children a record has by its word, whether or not it may stand where it does.
fn children(w: u32) -> usize {
    let p = payload(w) as usize;
    match kind(w) {
        1 | 17 => 1 + p,
        2 | 4 | 5 | 18 | 19 | 20 | 23 | 24 => 1,
        3 | 16 | 22 | 28 | 29 | 33 | 36 | 39 => p,
        21 => 2,
        25 => p % 256,
        26 => 2 + (p & 1) + (p >> 2 & 1),
        30 => 3 + (p >> 2 & 1),
        31 => 2 + (p >> 1 & 1),
        32 => 2,
        37 => 1 + (p & 1),
        _ => 0,
    }
}

/// The depth of the deepest record, as far as the words go.
fn deepest(words: &[u32]) -> usize {
    let mut open: Vec<usize> = Vec::new();
    let mut most = 0;
    for w in words {
        most = most.max(open.len() + 1);
        open.push(children(*w));
        while open.last() == Some(&0) {
            open.pop();
            match open.last_mut() {
                Some(n) => *n -= 1,
                None => return most,
            }
        }
    }
    most
}

/// The place behind the record at `at`, cut at the end.
fn behind(words: &[u32], at: usize) -> usize {
    let mut left = 1usize;
    let mut i = at;
    while left > 0 && i < words.len() {
        left += children(words[i]);
        left -= 1;
        i += 1;
    }
    i
}

/// A module that differs too and that no single step makes smaller.
pub fn shrunk(m: &[u32], entries: Entries) -> Vec<u32> {
    let differs = |m: &[u32]| Comparison::new(entries).with_all_lengths(&bytes_of(m)).is_err();
    let mut small = m.to_vec();
    if !differs(&small) {
        return small;
    }
    while let Some(s) = smaller(&small, &differs) {
        small = s;
    }
    small
}

/// The first module one step away that differs too: with a record gone from its list, a leaf or a record inside in the place of a record, a word
/// gone, or a payload lower.
fn smaller(m: &[u32], differs: &dyn Fn(&[u32]) -> bool) -> Option<Vec<u32>> {
    let changed = |from: usize, until: usize, by: &[u32]| {
        let mut s = m.to_vec();
        s.splice(from..until, by.iter().copied());
        s
    };
    for at in 0..m.len() {
        let end = behind(m, at);
        let is_list = |i: &usize| matches!(kind(m[*i]), 1 | 3 | 16 | 17 | 25 | 28 | 29 | 33 | 36 | 39) && payload(m[*i]) > 0;
        // The closest list around, by counting back.
        if let Some(list) = (0..at).rev().filter(is_list).find(|i| behind(m, *i) >= end) {
            let mut s = changed(at, end, &[]);
            s[list] -= 1;
            if differs(&s) {
                return Some(s);
            }
        }
        if kind(m[at]) != 8 {
            let s = changed(at, end, &[word(8, 0)]);
            if differs(&s) {
                return Some(s);
            }
        }
        // A record inside in its place, as it is or as a statement. In a long module only the first.
        let last = if m.len() <= 200 { end } else { end.min(at + 2) };
        for inner in at + 1..last {
            let record = &m[inner..behind(m, inner)];
            for s in [changed(at, end, record), changed(at, end, &[&[word(2, 0)], record].concat())] {
                if s.len() < m.len() && differs(&s) {
                    return Some(s);
                }
            }
        }
    }
    for (at, w) in m.iter().enumerate() {
        let s = changed(at, at + 1, &[]);
        if differs(&s) {
            return Some(s);
        }
        let p = payload(*w);
        for lower in [0, p / 2, p.saturating_sub(1)] {
            let s = changed(at, at + 1, &[word(kind(*w), lower)]);
            if lower < p && differs(&s) {
                return Some(s);
            }
        }
    }
    None
}
