//! Measures the proved rewriter through its C entry, the independent Rust and a plain copy of the words, on the same inputs in one run, bytes in
//! and bytes out. Prints a table of nanoseconds and ratios.

use independent::generator::Random;
use independent::{MOST_DEPTH, MOST_WORDS, Verdict, bytes_of, judge, judge_words, packed, parsed, report_bytes, rewrite_bytes, word};
use std::collections::BTreeSet;
use std::hint::black_box;
use std::time::Duration;

#[path = "../proved.rs"]
mod proved;

const SIZES: [usize; 5] = [16, 64, 256, 1024, 4096];

fn main() {
    let mut args = std::env::args().skip(1);
    match (args.next().as_deref(), args.next()) {
        (None, None) => table(),
        (Some("shapes"), words) => match words.as_deref().unwrap_or("4096").parse() {
            Ok(n) if (16..=MOST_WORDS).contains(&n) => all_shapes(n),
            _ => usage(),
        },
        (Some("refused"), None) => all_refused(),
        _ => usage(),
    }
}

fn usage() {
    eprintln!(
        "bench               the table\nbench shapes [N]    every shape of classes in one another, at N words, 16 to {MOST_WORDS} (the most if not said)\n\
         bench refused       modules of many lengths with a word at fault, early or late"
    );
    std::process::exit(2);
}

/// The modules that one measurement runs through, and the call that it makes.
struct Input {
    name: String,
    modules: Vec<Vec<u8>>,
    call: Call,
}

#[derive(Clone, Copy)]
enum Call {
    Rewrite,
    Report,
}

impl Input {
    fn one(name: &str, words: &[u32]) -> Input {
        Input { name: format!("{name}, {} words", words.len()), modules: vec![bytes_of(words)], call: Call::Rewrite }
    }

    fn words(&self) -> usize {
        self.modules.iter().map(|m| m.len() / 4).sum()
    }
}

fn table() {
    let worst = slowest_first(MOST_WORDS).swap_remove(0).shape;
    println!("worst nesting: {}\n", worst.name());
    let mut inputs = Vec::new();
    for n in SIZES {
        inputs.push(Input::one("typical script", &typical(n)));
    }
    let mut r = Random::new(3, 0);
    let bank: Vec<Vec<u8>> = (0..256).map(|_| bytes_of(&typical(16 + 4 * r.below(13) as usize))).collect();
    let name = format!("bank of {} scripts, 16 to 64 words each", bank.len());
    inputs.push(Input { name, modules: bank, call: Call::Rewrite });
    for n in SIZES {
        inputs.push(Input::one("no class", &without_classes(n)));
    }
    for n in SIZES {
        inputs.push(Input::one("worst nesting", &worst.module(n)));
    }
    for n in SIZES {
        inputs.push(Input::one("nesting with the highest ratio", &by_ratio(n).swap_remove(0).shape.module(n)));
    }
    let name = format!("symbol report of a typical script, {MOST_WORDS} words");
    inputs.push(Input { name, modules: vec![bytes_of(&typical(MOST_WORDS))], call: Call::Report });
    println!("| input | words written | proved, ns | Rust, ns | copy, ns | proved, ns a word | proved : Rust | proved : copy |");
    println!("|---|---|---|---|---|---|---|---|");
    for input in inputs {
        let written: usize = input.modules.iter().map(|m| answer(m, input.call)).sum();
        let [ours, rust, copy] = measured(&input, 40);
        println!(
            "| {} | {} | {:.0} | {:.0} | {:.0} | {:.1} | {:.2} | {:.0} |",
            input.name,
            written,
            ours,
            rust,
            copy,
            ours / input.words() as f64,
            ours / rust,
            ours / copy
        );
    }
}

/// The words that an answer has. Both must give it; a refused module would be no measure of the rewriting.
fn answer(module: &[u8], call: Call) -> usize {
    let Verdict::Accepted(r) = judge(module) else { panic!("refused") };
    let mut out = vec![0u8; 12 * MOST_WORDS];
    let (got, n) = match call {
        Call::Rewrite => (proved::rewrite(module, &mut out), r.words.len()),
        Call::Report => (proved::report(module, &mut out), r.fresh.len()),
    };
    assert_eq!(got, packed(0, n, r.fresh.len()), "the two answers differ");
    n
}

/// Nanoseconds for one run through the modules, by each of the three: the least of many rounds, which take turns.
fn measured(input: &Input, rounds: usize) -> [f64; 3] {
    let mut out = vec![0u8; 12 * MOST_WORDS];
    let mut least = [f64::MAX; 3];
    let mut repeats = [1u32; 3];
    let mut left = rounds;
    while left > 0 {
        left -= 1;
        for way in 0..3 {
            let begin = processor_time();
            for _ in 0..repeats[way] {
                for m in &input.modules {
                    let m = black_box(m);
                    let n = match (way, input.call) {
                        (0, Call::Rewrite) => proved::rewrite(m, &mut out),
                        (0, Call::Report) => proved::report(m, &mut out),
                        (1, Call::Rewrite) => rewrite_bytes(m, &mut out),
                        (1, Call::Report) => report_bytes(m, &mut out),
                        _ => copied(m, &mut out),
                    };
                    black_box((n, &mut out));
                }
            }
            let spent = processor_time() - begin;
            if spent < Duration::from_micros(500) {
                // Too short to be measured well: more calls a round, and the rounds anew.
                repeats[way] *= 2;
                left = rounds;
            } else {
                least[way] = least[way].min(spent.as_nanos() as f64 / f64::from(repeats[way]));
            }
        }
    }
    least
}

/// The time that this thread has had, so that other work on the machine counts less.
fn processor_time() -> Duration {
    #[repr(C)]
    struct Timespec {
        seconds: i64,
        nanoseconds: i64,
    }
    unsafe extern "C" {
        fn clock_gettime(clock: i32, time: *mut Timespec) -> i32;
    }
    const THREAD: i32 = 3;
    let mut t = Timespec { seconds: 0, nanoseconds: 0 };
    // SAFETY: t is a timespec as 64-bit Linux has it, and is written only.
    let failed = unsafe { clock_gettime(THREAD, &mut t) };
    assert_eq!(failed, 0);
    Duration::new(t.seconds as u64, t.nanoseconds as u32)
}

/// Word by word from bytes to bytes.
fn copied(module: &[u8], out: &mut [u8]) -> u64 {
    for (to, from) in out.chunks_exact_mut(4).zip(module.chunks_exact(4)) {
        let w = u32::from_le_bytes([from[0], from[1], from[2], from[3]]);
        to.copy_from_slice(&w.to_le_bytes());
    }
    module.len() as u64 / 4
}

/// `@control(..) class { @knob(..) static gain = 1; @cc [key]; process(x, y = 0) { .. } }` with a reference to the class, and the statements around.
const CLASS: &str = "4:0 26:1 28:1 17:1 9:0 10:3 27:2 29:3 31:3 28:1 17:2 9:1 10:4 11:1 34:5 11:1 32:0 28:1 9:1 9:3 \
    30:4 28:0 34:6 36:2 37:0 28:0 37:1 28:0 11:0 39:2 5:4 17:1 9:5 9:2 2:0 18:4 25:258 9:4 15:0";
const SMALL_CLASS: &str = "4:0 26:1 28:0 27:2 29:1 31:0 28:1 9:0 34:5";
const STATEMENTS: &str = "5:4 17:1 9:5 10:1 2:0 18:4 25:258 9:4 11:2";

/// A script of exactly n words: classes with decorated members and plain statements in turn.
fn typical(n: usize) -> Vec<u32> {
    let parts = [(parsed(CLASS), 1), (parsed(STATEMENTS), 2), (parsed(SMALL_CLASS), 1)];
    let mut m = vec![word(1, 0), word(40, 6)];
    let mut statements = 0;
    for (part, count) in parts.iter().cycle() {
        if m.len() + part.len() > n {
            break;
        }
        m.extend(part);
        statements += count;
    }
    closed(m, statements, n)
}

/// A script of exactly n words with nothing to rewrite.
fn without_classes(n: usize) -> Vec<u32> {
    let part = parsed(STATEMENTS);
    let mut m = vec![word(1, 0), word(40, 6)];
    let mut statements = 0;
    while m.len() + part.len() <= n {
        m.extend(&part);
        statements += 2;
    }
    closed(m, statements, n)
}

/// Fills up to n words with statements, and puts their number in.
fn closed(mut m: Vec<u32>, mut statements: u32, n: usize) -> Vec<u32> {
    let small = parsed(SMALL_CLASS);
    if statements == 0 && m.len() + small.len() <= n {
        m.extend(small);
        statements += 1;
    }
    while m.len() < n {
        if n - m.len() > 1 {
            m.extend([word(2, 0), word(8, 1)]);
        } else {
            m.push(word(3, 0));
        }
        statements += 1;
    }
    m[0] = word(1, statements);
    m
}

/// How classes stand in one another: where in the outer one the inner one stands, what else the outer one has, and what fills the innermost.
#[derive(Clone, Copy)]
struct Shape {
    place: Place,
    class_decorated: bool,
    member_decorated: bool,
    filling: Filling,
}

/// A name, then what stands in front of the inner class statement and behind it. DECORATORS stands for the class's, BODY for the 29 and what it
/// has besides the element that follows, ALONE for a 29 with nothing else, FUNCTION for the records around a statement in an expression.
type Place = (&'static str, &'static str, &'static str);

/// A name, then a statement.
type Filling = (&'static str, &'static str);

const PLACES: [Place; 11] = [
    ("a static block", "4:0 26:1 DECORATORS 27:0 BODY 33:1", ""),
    ("a method's code", "4:0 26:1 DECORATORS 27:0 BODY 30:4 28:0 34:1 36:0 39:1", ""),
    ("a decorated method's code", "4:0 26:1 DECORATORS 27:0 BODY 30:4 28:1 9:0 34:1 36:0 39:1", ""),
    ("a constructor's code", "4:0 26:1 DECORATORS 27:0 BODY 30:6 28:0 34:1 36:0 39:1", ""),
    ("a member's decorator", "4:0 26:1 DECORATORS 27:0 BODY 31:0 28:1 FUNCTION", "34:1"),
    ("a parameter's decorator", "4:0 26:1 DECORATORS 27:0 BODY 30:0 28:0 34:1 36:1 37:0 28:1 FUNCTION", ""),
    ("a constructor parameter's decorator", "4:0 26:1 DECORATORS 27:0 BODY 30:2 28:0 34:1 36:1 37:0 28:1 FUNCTION", ""),
    ("a decorated member's key", "4:0 26:1 DECORATORS 27:0 BODY 31:0 28:1 9:0 FUNCTION", ""),
    ("a property's value", "4:0 26:1 DECORATORS 27:0 BODY 31:2 28:0 34:1 FUNCTION", ""),
    ("the heritage", "4:0 26:5 DECORATORS 27:0 FUNCTION", "ALONE"),
    ("a class decorator", "4:0 26:1 28:1 FUNCTION", "27:0 ALONE"),
];

const FILLINGS: [Filling; 3] = [
    ("expressions", "2:0 9:0"),
    ("decorated classes", "4:0 26:1 28:1 9:0 27:0 29:0"),
    ("decorated members", "4:0 26:1 28:0 27:0 29:1 32:0 28:1 9:0 34:1"),
];

fn shapes() -> impl Iterator<Item = Shape> {
    PLACES.into_iter().flat_map(|place| {
        FILLINGS.into_iter().flat_map(move |filling| {
            [(false, false), (false, true), (true, false), (true, true)].map(|(class_decorated, member_decorated)| Shape {
                place,
                class_decorated,
                member_decorated,
                filling,
            })
        })
    })
}

impl Shape {
    fn name(&self) -> String {
        format!(
            "classes in {}{}{}, {} inside",
            self.place.0,
            if self.class_decorated { ", decorated" } else { "" },
            if self.member_decorated { ", with a decorated member" } else { "" },
            self.filling.0
        )
    }

    /// A statement with `deep` classes in one another and `wide` statements in the innermost.
    fn statement(&self, deep: usize, wide: usize) -> Vec<u32> {
        let decorators = if self.class_decorated { "28:1 9:0" } else { "28:0" };
        let (body, alone) = if self.member_decorated { ("29:2 32:0 28:1 9:0 34:1", "29:1 32:0 28:1 9:0 34:1") } else { ("29:1", "29:0") };
        let records = |text: &str| {
            let text = text.replace("DECORATORS", decorators).replace("BODY", body).replace("ALONE", alone);
            parsed(&text.replace("FUNCTION", "21:0 36:0 39:1"))
        };
        let mut m = records(self.place.1).repeat(deep);
        m.push(word(3, wide as u32));
        m.extend(parsed(self.filling.1).repeat(wide));
        m.extend(records(self.place.2).repeat(deep));
        m
    }

    /// A module of exactly n words, as deep and then as wide as it goes.
    fn module(&self, n: usize) -> Vec<u32> {
        let of = |deep, wide| {
            let mut m = parsed("1:1 40:1");
            m.extend(self.statement(deep, wide));
            m
        };
        let fits = |m: &[u32]| m.len() <= n && matches!(judge_words(m), Verdict::Accepted(_));
        let deep = (0..MOST_DEPTH as usize).take_while(|d| fits(&of(*d, 1))).last().unwrap_or(0);
        let wide = (0..n).take_while(|w| of(deep, *w).len() <= n).last().unwrap_or(0);
        closed(of(deep, wide), 1, n)
    }
}

/// What one shape takes.
struct Measured {
    shape: Shape,
    ours: f64,
    rust: f64,
}

/// Every shape at n words, the slowest for the proved rewriter first.
fn slowest_first(n: usize) -> Vec<Measured> {
    let mut all: Vec<Measured> = shapes()
        .map(|shape| {
            let [ours, rust, _] = measured(&Input::one("", &shape.module(n)), if n < 1024 { 20 } else { 8 });
            Measured { shape, ours, rust }
        })
        .collect();
    all.sort_by(|a, b| b.ours.total_cmp(&a.ours));
    all
}

/// Every shape at n words, the one with the highest ratio first.
fn by_ratio(n: usize) -> Vec<Measured> {
    let mut all = slowest_first(n);
    all.sort_by(|a, b| (b.ours / b.rust).total_cmp(&(a.ours / a.rust)));
    all
}

fn all_shapes(n: usize) {
    let all = by_ratio(n);
    let slower = all.iter().filter(|m| m.ours > m.rust).count();
    println!("{slower} of {} shapes at {n} words take more time than the plain Rust", all.len());
    println!("proved : Rust; proved, ns; proved, ns a word");
    for m in all {
        println!("{:>7.2} {:>12.0} {:>8.1}  {}", m.ours / m.rust, m.ours, m.ours / n as f64, m.shape.name());
    }
}

/// Scripts and lists of empty blocks with one word of no kind, early or late: what a refusal takes.
fn all_refused() {
    let mut all = Vec::new();
    for n in [1, 2, 4, 8, 16, 32, 64, 65, 128, 129, 256, 512, 513, 1024, 1025, 4096] {
        let good = if n < 16 { blocks(n) } else { typical(n) };
        let places: BTreeSet<usize> = (0..10).chain((12..n).step_by(n / 8 + 1)).chain([n - 1]).filter(|at| *at < n).collect();
        for at in places {
            let mut m = good.clone();
            m[at] = word(63, 0);
            assert!(matches!(judge_words(&m), Verdict::Refused(2)), "not refused with 2");
            let name = format!("{n} words, the fault at {at}");
            let [ours, rust, _] = measured(&Input { name: name.clone(), modules: vec![bytes_of(&m)], call: Call::Rewrite }, 20);
            all.push((ours, rust, name));
        }
    }
    all.sort_by(|a, b| (b.0 / b.1).total_cmp(&(a.0 / a.1)));
    let slower = all.iter().filter(|m| m.0 > m.1).count();
    println!("{slower} of {} refused modules take more time than the plain Rust", all.len());
    println!("proved : Rust; proved, ns; Rust, ns");
    for (ours, rust, name) in all {
        println!("{:>7.2} {:>12.0} {:>8.0}  {name}", ours / rust, ours, rust);
    }
}

/// A module of n words whose statements are empty blocks.
fn blocks(n: usize) -> Vec<u32> {
    let mut m = vec![word(1, n.saturating_sub(2) as u32), word(40, 6)];
    m.resize(n.max(2), word(3, 0));
    m.truncate(n);
    m
}
