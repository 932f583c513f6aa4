//! Prints made-up modules, a line of words as kind:payload for each.
//!
//! modules SEED COUNT [DEPTH]: modules from a seed, the same ones for the same seed. Most are well formed, by the grammar of docs/FORMAT.md; one in
//! three is damaged: a word changed, lost, doubled or put in, a symbol too many, a decorated constructor. Records nest down to DEPTH, which is 64 if it
//! isn't given, so that 65 gives modules that are too deep.
//!
//! modules deepest: modules whose records nest down to depth 64, one for each way to go down and for each two ways in turn, one of declared classes and
//! one of blocks with a class in the innermost; each of them short, and with a thousand statements more.
use gingerpost::word;
use std::env;
use std::fmt::Write;

/// Numbers from a seed (SplitMix64).
struct Numbers(u64);

impl Numbers {
    fn next(&mut self) -> u64 {
        self.0 = self.0.wrapping_add(0x9e37_79b9_7f4a_7c15);
        let z = (self.0 ^ self.0 >> 30).wrapping_mul(0xbf58_476d_1ce4_e5b9);
        let z = (z ^ z >> 27).wrapping_mul(0x94d0_49bb_1331_11eb);
        z ^ z >> 31
    }

    fn below(&mut self, n: usize) -> usize {
        (self.next() % n as u64) as usize
    }

    /// True once in n times.
    fn once_in(&mut self, n: usize) -> bool {
        self.below(n) == 0
    }
}

/// Where a class stands: under a class statement with that payload, or in an expression.
#[derive(Clone, Copy, PartialEq)]
enum Stands {
    Plain,
    Export,
    Default,
    Expression,
}

struct Maker {
    numbers: Numbers,
    words: Vec<u32>,
    symbols: usize,
    /// The words that the module should have.
    size: usize,
    depth: usize,
    /// How seldom a list of decorators is empty.
    decorated: usize,
    /// Whether records nest as deep as they may.
    deep: bool,
}

impl Maker {
    fn put(&mut self, kind: u32, payload: usize) {
        self.words.push(word(kind, payload as u32));
    }

    fn symbol(&mut self) -> usize {
        self.numbers.below(self.symbols)
    }

    fn name(&mut self) -> usize {
        self.numbers.below(9)
    }

    fn flag(&mut self) -> usize {
        self.numbers.below(2)
    }

    /// Whether a record at depth d may have children of children.
    fn goes_on(&self, d: usize, levels: usize) -> bool {
        d + levels <= self.depth && self.words.len() < self.size
    }

    fn count(&mut self, d: usize, most: usize) -> usize {
        if self.words.len() >= self.size || d > self.depth {
            0
        } else if self.deep {
            1 + self.numbers.below(most) / most.max(2)
        } else {
            self.numbers.below(most + 1)
        }
    }

    fn module(&mut self) {
        self.put(1, 0);
        self.put(40, self.symbols);
        let mut n = 0;
        while n == 0 || self.words.len() < self.size && !self.deep {
            self.statement(2, true);
            n += 1;
        }
        self.words[0] = word(1, n);
    }

    fn statements(&mut self, kind: u32, d: usize) {
        let n = self.count(d + 3, 3);
        self.put(kind, n);
        for _ in 0..n {
            self.statement(d + 1, false);
        }
    }

    fn statement(&mut self, d: usize, top: bool) {
        let class = self.goes_on(d, 4) && !self.numbers.once_in(3);
        match self.numbers.below(if top { 8 } else { 6 }) {
            _ if class => {
                let stands = match self.numbers.below(if top { 3 } else { 1 }) {
                    1 => Stands::Export,
                    2 => Stands::Default,
                    _ => Stands::Plain,
                };
                self.put(4, stands as usize);
                self.class(d + 1, stands);
            }
            0 | 1 if self.goes_on(d, 3) => self.statements(3, d),
            2 | 3 => {
                let s = self.symbol();
                self.put(5, s);
                self.expression(d + 1);
            }
            n @ (6 | 7) => {
                let s = self.symbol();
                self.put(n as u32, s);
            }
            _ => {
                self.put(2, 0);
                self.expression(d + 1);
            }
        }
    }

    fn class(&mut self, d: usize, stands: Stands) {
        let nameless = matches!(stands, Stands::Default | Stands::Expression) && self.numbers.once_in(2);
        let declare = matches!(stands, Stands::Plain | Stands::Export) && self.numbers.once_in(12);
        let heritage = self.numbers.once_in(5);
        self.put(26, usize::from(!nameless) + 2 * usize::from(declare) + 4 * usize::from(heritage));
        self.decorators(d + 1);
        if !nameless {
            let s = self.symbol();
            self.put(27, s);
        }
        if heritage {
            self.expression(d + 1);
        }
        let n = self.count(d + 3, 4);
        self.put(29, n);
        for _ in 0..n {
            self.element(d + 2);
        }
    }

    fn decorators(&mut self, d: usize) {
        let n = if self.numbers.once_in(self.decorated) || d >= self.depth { 0 } else { 1 + self.numbers.below(2) };
        self.put(28, n);
        for _ in 0..n {
            self.expression(d + 1);
        }
    }

    fn element(&mut self, d: usize) {
        match self.numbers.below(8) {
            0..=3 if d + 4 <= self.depth => {
                let constructor = self.numbers.once_in(3);
                let code = self.flag();
                let fixed = if constructor { 2 } else { self.flag() };
                self.put(30, fixed + 4 * code);
                if constructor {
                    self.put(28, 0);
                } else {
                    self.decorators(d + 1);
                }
                self.key(d + 1);
                self.parameters(d + 1, true);
                if code == 1 {
                    self.statements(39, d + 1);
                }
            }
            4 | 5 if d + 2 <= self.depth => {
                let (fixed, value) = (self.flag(), self.flag());
                self.put(31, fixed + 2 * value);
                self.decorators(d + 1);
                self.key(d + 1);
                if value == 1 {
                    self.expression(d + 1);
                }
            }
            6 if d + 2 <= self.depth => {
                let fixed = self.flag();
                self.put(32, fixed);
                self.decorators(d + 1);
                self.key(d + 1);
            }
            _ => self.statements(33, d),
        }
    }

    fn key(&mut self, d: usize) {
        match self.numbers.below(5) {
            0 | 1 => {
                let n = self.name();
                self.put(34, n);
            }
            2 => {
                let n = self.name();
                self.put(35, n);
            }
            _ => self.expression(d),
        }
    }

    fn parameters(&mut self, d: usize, decorated: bool) {
        let n = self.count(d + 3, 2);
        self.put(36, n);
        for _ in 0..n {
            let default = self.flag();
            self.put(37, default);
            if decorated {
                self.decorators(d + 2);
            } else {
                self.put(28, 0);
            }
            if default == 1 {
                self.expression(d + 2);
            }
        }
    }

    fn leaf(&mut self) {
        match self.numbers.below(10) {
            0 => {
                let p = self.numbers.below(1 << 26);
                self.put(8, p);
            }
            1 => {
                let n = self.name();
                self.put(10, n);
            }
            2 => {
                let n = self.numbers.below(1 << 26);
                self.put(11, n);
            }
            3 => {
                let n = self.name();
                self.put(12, n);
            }
            4 => self.put(13, 0),
            5 => self.put(14, 0),
            6 => self.put(15, 0),
            _ => {
                let s = self.symbol();
                self.put(9, s);
            }
        }
    }

    fn expressions(&mut self, d: usize, n: usize) {
        for _ in 0..n {
            self.expression(d);
        }
    }

    fn expression(&mut self, d: usize) {
        if !self.goes_on(d, 1) || !self.deep && self.numbers.once_in(2) {
            return self.leaf();
        }
        match self.numbers.below(14) {
            0 | 1 => {
                let n = self.count(d + 1, 3);
                self.put(16, n);
                self.expressions(d + 1, n);
            }
            2 => {
                let n = self.count(d + 1, 2);
                self.put(17, n);
                self.expressions(d + 1, n + 1);
            }
            3 => {
                let s = self.symbol();
                self.put(18, s);
                self.expression(d + 1);
            }
            4 => {
                let n = self.name();
                self.put(19, n);
                self.expression(d + 1);
            }
            5..=7 if self.goes_on(d, 4) => {
                self.put(20, 0);
                self.class(d + 1, Stands::Expression);
            }
            8..=10 if self.goes_on(d, 4) => {
                self.put(21, 0);
                self.parameters(d + 1, false);
                self.statements(39, d + 1);
            }
            11 => {
                let n = 2 + 2 * self.flag();
                self.put(22, n);
                self.expressions(d + 1, n);
            }
            12 => {
                let n = self.name();
                self.put(23, n);
                self.expression(d + 1);
            }
            13 => {
                self.put(24, 0);
                self.expression(d + 1);
            }
            _ => {
                let n = self.count(d + 1, 3);
                let form = self.name();
                self.put(25, 256 * form + n);
                self.expressions(d + 1, n);
            }
        }
    }

    /// One fault, most often: a word or two that aren't as they were made.
    fn damage(&mut self) {
        let n = self.words.len();
        let i = self.numbers.below(n);
        match self.numbers.below(9) {
            0 => self.words[i] ^= 1 << self.numbers.below(32),
            1 => self.words[i] = self.numbers.next() as u32,
            2 => {
                self.words.remove(i);
            }
            3 => self.words.insert(i, self.words[i]),
            4 => self.words.truncate(i),
            5 => self.words.push(self.words[i]),
            6 => self.words[1] = word(40, self.numbers.below(4) as u32),
            7 => self.decorate_constructor(),
            _ => self.words[1] = word(40, 999_999 + self.numbers.below(3) as u32),
        }
    }

    /// The first constructor's own list of decorators gets one.
    fn decorate_constructor(&mut self) {
        let constructor = |w: &u32| w >> 26 == 30 && w & 2 == 2;
        if let Some(i) = self.words.iter().position(constructor) {
            self.words[i + 1] = word(28, 1);
            self.words.insert(i + 2, word(9, 0));
        }
    }
}

/// Ways from a place for an expression to one further down: the words in front of it, those behind it, how many levels down.
const WAYS: [(&str, &str, usize); 16] = [
    ("16:1", "", 1),
    ("18:0", "", 1),
    ("19:1", "", 1),
    ("20:0 26:4 28:0", "29:0", 2),
    ("20:0 26:0 28:0 29:1 31:2 28:0 34:1", "", 4),
    ("20:0 26:0 28:0 29:1 31:0 28:0", "", 4),
    ("20:0 26:0 28:0 29:1 30:4 28:0 34:1 36:0 39:1 2:0", "", 6),
    ("20:0 26:0 28:0 29:1 30:2 28:0 34:1 36:1 37:0 28:1", "", 7),
    ("21:0 36:0 39:1 4:0 26:1 28:1", "27:0 29:0", 5),
    ("21:0 36:0 39:1 4:0 26:1 28:1 9:0 27:0 29:1 31:0 28:1 9:0", "", 6),
    ("21:0 36:0 39:1 4:0 26:1 28:1 9:0 27:0 29:1 33:1 2:0", "", 7),
    ("21:0 36:0 39:1 4:0 26:1 28:0 27:0 29:1 30:4 28:1", "34:1 36:0 39:0", 7),
    ("21:0 36:0 39:1 4:0 26:1 28:1 9:0 27:0 29:1 30:4 28:1 9:0 34:1 36:0 39:1 2:0", "", 8),
    ("21:0 36:0 39:1 4:0 26:1 28:0 27:0 29:1 30:6 28:0 34:1 36:1 37:0 28:1", "39:0", 9),
    ("21:0 36:0 39:1 4:0 26:3 28:0 27:0 29:1 31:2 28:0 34:1", "", 6),
    ("21:0 36:0 39:1 4:0 26:3 28:0 27:0 29:1 30:4 28:0 34:1 36:0 39:1 4:0 26:3 28:0 27:0 29:1 30:4 28:0 34:1 36:0 39:1 2:0", "", 12),
];

/// The two ways in turn, as far down as they lead, then arrays down to depth 64.
fn deepest(one: usize, other: usize) -> String {
    let (mut front, mut behind) = (vec!["1:1 40:1 2:0"], Vec::new());
    let mut depth = 3;
    for i in [one, other].into_iter().cycle() {
        let (before, after, levels) = WAYS[i];
        if depth + levels > 64 {
            break;
        }
        front.push(before);
        behind.push(after);
        depth += levels;
    }
    front.resize(front.len() + 64 - depth, "16:1");
    front.push("9:0");
    front.extend(behind.into_iter().rev().filter(|w| !w.is_empty()));
    front.join(" ")
}

/// Prints a module of one statement, and the same with more statements behind it: a call has other arrays, and another frame, for a longer module.
fn longer_too(module: &str) {
    println!("{module}");
    let statements = module.strip_prefix("1:1 ").expect("one statement");
    println!("1:1001 {statements}{}", " 3:0".repeat(1000));
}

fn main() {
    if env::args().nth(1).as_deref() == Some("deepest") {
        for one in 0..WAYS.len() {
            for other in 0..WAYS.len() {
                longer_too(&deepest(one, other));
            }
        }
        longer_too(&format!("1:1 40:1 {}2:0 16:1 9:0", "4:0 26:3 28:0 27:0 29:1 30:4 28:0 34:1 36:0 39:1 ".repeat(12)));
        longer_too(&format!("1:1 40:1 {}4:0 26:1 28:1 9:0 27:0 29:0", "3:1 ".repeat(59)));
        return;
    }
    let given: Vec<u64> = env::args().skip(1).map_while(|a| a.parse().ok()).collect();
    let (seed, count, depth) = match given[..] {
        [seed, count] => (seed, count, 64),
        [seed, count, depth] => (seed, count, depth as usize),
        _ => {
            eprintln!("usage: modules deepest, or modules SEED COUNT [DEPTH]");
            std::process::exit(2);
        }
    };
    for i in 0..count {
        let mut numbers = Numbers(seed.wrapping_mul(0x1_0000_0001).wrapping_add(i));
        let size = match i % 50 {
            0 => 4096,
            1 => 3000,
            n => 20 + 8 * n as usize,
        };
        let (symbols, decorated) = (1 + numbers.below(6), 1 + numbers.below(6));
        let mut maker = Maker { numbers, words: Vec::new(), symbols, size, depth, decorated, deep: i % 5 == 4 };
        maker.module();
        if i % 3 == 2 {
            maker.damage();
        }
        let mut line = String::new();
        for w in &maker.words {
            write!(line, "{}:{} ", w >> 26, w & 0x3ff_ffff).expect("a string grows");
        }
        println!("{}", line.trim_end());
    }
}
