//! Makes modules to compare on: every short list of words over an alphabet that could still become a module, random good modules of every size
//! and depth, and damaged copies of them. A module is settled by a seed and an index alone.

use crate::{MOST_DEPTH, MOST_SYMBOLS, MOST_WORDS, kind, parsed, payload, reading, word};

/// Numbers that look random and follow from a seed (splitmix64).
pub struct Random(u64);

impl Random {
    pub fn new(seed: u64, index: u64) -> Random {
        let mut r = Random(seed ^ 0x9e37_79b9_7f4a_7c15u64.wrapping_mul(index.wrapping_add(1)));
        r.draw();
        r
    }

    pub fn draw(&mut self) -> u64 {
        self.0 = self.0.wrapping_add(0x9e37_79b9_7f4a_7c15);
        let mut z = self.0;
        z = (z ^ z >> 30).wrapping_mul(0xbf58_476d_1ce4_e5b9);
        z = (z ^ z >> 27).wrapping_mul(0x94d0_49bb_1331_11eb);
        z ^ z >> 31
    }

    /// 0 to n-1.
    pub fn below(&mut self, n: u32) -> u32 {
        (((self.draw() >> 32) * u64::from(n)) >> 32) as u32
    }

    pub fn percent(&mut self, p: u32) -> bool {
        self.below(100) < p
    }

    pub fn one<'a, T>(&mut self, list: &'a [T]) -> &'a T {
        &list[self.below(list.len() as u32) as usize]
    }
}

/// How a case came about.
#[derive(Clone, Copy, PartialEq, Eq, Debug)]
pub enum Origin {
    Exhaustive,
    Good,
    Deep,
    Large,
    Damaged,
}

/// A module of a random run.
pub fn case(seed: u64, index: u64) -> (Origin, Vec<u32>) {
    let mut r = Random::new(seed, index);
    let lot = r.below(2000);
    match lot {
        0 => (Origin::Large, large(&mut r)),
        1..80 => (Origin::Deep, deep(&mut r)),
        80..120 => {
            let m = deep(&mut r);
            (Origin::Damaged, damaged(&mut r, m))
        }
        120..800 => {
            let m = good(&mut r);
            (Origin::Damaged, damaged(&mut r, m))
        }
        _ => (Origin::Good, good(&mut r)),
    }
}

/// A good module of a random size, most of them small.
pub fn good(r: &mut Random) -> Vec<u32> {
    let target = match r.below(400) {
        0..60 => 3 + r.below(10),
        60..240 => 8 + r.below(40),
        240..379 => 40 + r.below(110),
        379..399 => 150 + r.below(350),
        _ => 500 + r.below(1500),
    };
    of_size(r, target as usize)
}

/// A good module of about this many words, never more than a module may have.
pub fn of_size(r: &mut Random, target: usize) -> Vec<u32> {
    loop {
        let m = Maker::new(r, target.min(MOST_WORDS), MOST_DEPTH).module();
        if m.len() <= MOST_WORDS {
            return m;
        }
    }
}

/// A module with a record at depth 63 to 66, the deepest that it has.
pub fn deep(r: &mut Random) -> Vec<u32> {
    let limit = 63 + r.below(4);
    let target = 40 + r.below(200);
    let mut maker = Maker::new(r, target as usize, limit);
    maker.diving = true;
    maker.module()
}

/// A module of exactly 4,095, 4,096 or 4,097 words.
pub fn large(r: &mut Random) -> Vec<u32> {
    let length = MOST_WORDS - 1 + r.below(3) as usize;
    if r.percent(30) {
        let m = crowded(r, length);
        return padded(r, m, length);
    }
    let target = 500 + r.below(3596) as usize;
    loop {
        let m = Maker::new(r, target.min(length), MOST_DEPTH).module();
        if m.len() <= length {
            return padded(r, m, length);
        }
    }
}

/// The module with as many statements of two words and of one behind it as make this many words.
fn padded(r: &mut Random, mut m: Vec<u32>, length: usize) -> Vec<u32> {
    while m.len() < length {
        m[0] += 1;
        if m.len() + 1 < length && r.percent(70) {
            m.extend([word(2, 0), word(8, r.below(1000))]);
        } else {
            m.push(word(3, 0));
        }
    }
    m
}

/// One class with as many short elements as go into this many words: the outputs that are longest for their module.
fn crowded(r: &mut Random, length: usize) -> Vec<u32> {
    const HEADS: [&str; 4] = ["4:0 26:1 28:0 27:0", "4:1 26:1 28:1 9:0 27:0", "4:2 26:0 28:1 19:0 8:0", "4:2 26:0 28:0"];
    const ELEMENTS: [&str; 6] =
        ["31:0 28:1 9:0 9:0", "31:1 28:1 8:0 34:1", "32:1 28:1 9:0 13:0", "30:0 28:0 35:1 36:1 37:0 28:1 9:0", "30:2 28:0 34:1 36:0", "33:0"];
    let kinds = 1 + r.below(ELEMENTS.len() as u32) as usize;
    let mut m = parsed("1:1 40:1");
    m.extend(parsed(r.one::<&str>(&HEADS)));
    let body = m.len();
    m.push(word(29, 0));
    loop {
        let element = parsed(r.one::<&str>(&ELEMENTS[..kinds]));
        if m.len() + element.len() > length {
            return m;
        }
        m.extend(element);
        m[body] += 1;
    }
}

/// How often what is made; in percent, drawn anew for each module.
struct Taste {
    class_decorators: u32,
    member_decorators: u32,
    parameter_decorators: u32,
    private_in: u32,
    nameless: u32,
    declare: u32,
    heritage: u32,
    is_static: u32,
    constructor: u32,
    static_block: u32,
    expression_key: u32,
    /// An identifier that names a class around, or the last one.
    class_reference: u32,
    /// A class that takes the symbol of a class around.
    same_symbol: u32,
    class_statement: u32,
    class_expression: u32,
    /// A child that isn't a leaf.
    nest: u32,
    elements: u32,
}

impl Taste {
    fn new(r: &mut Random) -> Taste {
        let mut often = |list: &[u32]| *r.one(list);
        Taste {
            class_decorators: often(&[0, 20, 50, 90]),
            member_decorators: often(&[0, 30, 60, 90]),
            parameter_decorators: often(&[0, 20, 50]),
            private_in: often(&[0, 0, 0, 5, 30]),
            nameless: often(&[10, 50, 90]),
            declare: often(&[0, 5, 40]),
            heritage: often(&[0, 20, 50]),
            is_static: often(&[10, 50, 90]),
            constructor: often(&[0, 15, 50]),
            static_block: often(&[0, 10, 40]),
            expression_key: often(&[10, 40, 80]),
            class_reference: often(&[0, 20, 60, 90]),
            same_symbol: often(&[0, 10, 60]),
            class_statement: often(&[30, 60, 90]),
            class_expression: often(&[3, 10, 30]),
            nest: often(&[20, 45, 70]),
            elements: often(&[1, 3, 6]),
        }
    }
}

/// Writes the words of one module.
struct Maker<'a> {
    r: &'a mut Random,
    taste: Taste,
    words: Vec<u32>,
    /// Beyond this many words only what must stand there is written.
    target: usize,
    /// No record is deeper.
    limit: u32,
    /// No leaf is chosen until a record at the limit is written.
    diving: bool,
    symbols: u32,
    /// The symbols of the classes around.
    around: Vec<u32>,
    last_class: Option<u32>,
}

impl Maker<'_> {
    fn new(r: &mut Random, target: usize, limit: u32) -> Maker<'_> {
        let taste = Taste::new(r);
        let symbols = match r.below(40) {
            0 => 0,
            1 => MOST_SYMBOLS,
            2 => MOST_SYMBOLS - r.below(3),
            3..10 => 1,
            10..25 => 2 + r.below(3),
            _ => 4 + r.below(12),
        };
        Maker { r, taste, words: Vec::new(), target, limit, diving: false, symbols, around: Vec::new(), last_class: None }
    }

    fn module(mut self) -> Vec<u32> {
        self.put(1, 0);
        self.put(40, self.symbols);
        let few = self.r.percent(60);
        let most = if few { 1 + self.r.below(4) } else { u32::MAX };
        let mut n = 0;
        while n < most && self.has_room() && !(n > 0 && self.r.percent(3)) {
            self.statement(2, true);
            n += 1;
        }
        self.words[0] = word(1, n);
        self.words
    }

    fn put(&mut self, kind: u32, payload: u32) {
        self.words.push(word(kind, payload));
    }

    fn has_room(&self) -> bool {
        self.words.len() < self.target
    }

    /// Whether to go deeper here, if a record at this depth is allowed.
    fn goes_on(&mut self, percent: u32, depth: u32) -> bool {
        depth <= self.limit && (self.diving || self.has_room() && self.r.percent(percent))
    }

    /// Called with the depth of what was written last.
    fn reached(&mut self, depth: u32) {
        if depth >= self.limit {
            self.diving = false;
        }
    }

    /// A number of children from 0 to `most`, none where there is no room, at least one on the way down.
    fn number(&mut self, most: u32, child_depth: u32) -> u32 {
        if child_depth > self.limit {
            return 0;
        }
        if self.diving {
            return 1 + self.r.below(most.max(1));
        }
        if !self.has_room() {
            return 0;
        }
        // Now and then a long list, up to the 255 children that a 25 can have.
        if self.r.below(150) == 0 { *self.r.one(&[12, 40, 255]) } else { self.r.below(most + 1) }
    }

    fn symbol(&mut self) -> u32 {
        if self.r.percent(self.taste.class_reference) {
            if let Some(s) = self.last_class.filter(|_| self.around.is_empty()) {
                return s;
            }
            if !self.around.is_empty() {
                return *self.r.one(&self.around);
            }
        }
        self.any_symbol()
    }

    fn any_symbol(&mut self) -> u32 {
        if self.symbols > 100 && self.r.percent(50) {
            return self.symbols - 1 - self.r.below(3);
        }
        self.r.below(self.symbols.min(100))
    }

    fn name(&mut self) -> u32 {
        match self.r.below(20) {
            0 => (1 << 26) - 1,
            _ => self.r.below(8),
        }
    }

    fn statements(&mut self, kind: u32, depth: u32) {
        let at = self.words.len();
        self.put(kind, 0);
        self.reached(depth);
        let n = self.number(3, depth + 1);
        for _ in 0..n {
            self.statement(depth + 1, false);
        }
        self.words[at] = word(kind, n);
    }

    fn statement(&mut self, depth: u32, top: bool) {
        if self.goes_on(self.taste.class_statement, depth + 2) && (self.symbols > 0 || top) {
            return self.class_statement(depth, top);
        }
        let lot = self.r.below(10);
        if lot < 2 && self.goes_on(100, depth + 1) || depth + 1 > self.limit {
            return self.statements(3, depth);
        }
        if lot < 4 && self.symbols > 0 {
            let s = self.symbol();
            self.put(5, s);
            return self.expression(depth + 1);
        }
        if lot < 6 && top && self.symbols > 0 && !self.diving {
            let s = self.symbol();
            let k = 6 + self.r.below(2);
            return self.put(k, s);
        }
        self.put(2, 0);
        self.expression(depth + 1);
    }

    fn class_statement(&mut self, depth: u32, top: bool) {
        let mut export = if top { self.r.below(3) } else { 0 };
        if self.symbols == 0 {
            export = 2;
        }
        self.put(4, export);
        let nameless = export == 2 && (self.symbols == 0 || self.r.percent(self.taste.nameless));
        let declare = export != 2 && self.r.percent(self.taste.declare);
        self.class(depth + 1, nameless, declare);
    }

    fn class(&mut self, depth: u32, nameless: bool, declare: bool) {
        let at = self.words.len();
        self.put(26, 0);
        self.decorators(depth + 1, self.taste.class_decorators);
        let mut flags = 2 * u32::from(declare);
        let mut id = None;
        if !nameless {
            flags += 1;
            let same = !self.around.is_empty() && self.r.percent(self.taste.same_symbol);
            let s = if same { *self.r.one(&self.around) } else { self.any_symbol() };
            self.put(27, s);
            id = Some(s);
        }
        if self.r.percent(self.taste.heritage) && depth < self.limit {
            flags += 4;
            // A class that isn't yet around is named in its heritage too.
            if let (Some(s), true) = (id, self.r.percent(20)) {
                self.put(9, s);
            } else {
                self.expression(depth + 1);
            }
        }
        self.words[at] = word(26, flags);
        self.around.extend(id);
        let body = self.words.len();
        self.put(29, 0);
        self.reached(depth + 1);
        let n = self.number(self.taste.elements, depth + 3);
        for _ in 0..n {
            self.element(depth + 2);
        }
        self.words[body] = word(29, n);
        if id.is_some() {
            self.around.pop();
        }
        self.last_class = id.or(self.last_class);
    }

    fn decorators(&mut self, depth: u32, percent: u32) {
        let at = self.words.len();
        self.put(28, 0);
        self.reached(depth);
        let mut n = 0;
        while n < 3 && depth < self.limit && self.r.percent(if n == 0 { percent } else { 25 }) {
            self.decorator(depth + 1);
            n += 1;
        }
        self.words[at] = word(28, n);
    }

    fn decorator(&mut self, depth: u32) {
        if self.r.percent(self.taste.private_in) && depth < self.limit {
            match self.r.below(3) {
                0 if depth + 2 <= self.limit => {
                    self.put(17, 0);
                    let n = self.name();
                    self.put(19, n);
                    self.leaf(depth + 2);
                }
                _ => {
                    let n = self.name();
                    self.put(19, n);
                    self.expression(depth + 1);
                }
            }
            return;
        }
        if self.symbols > 0 && !self.diving && self.r.percent(50) {
            let s = self.symbol();
            return self.put(9, s);
        }
        self.expression(depth);
    }

    /// An element; its children may stand at depth + 1.
    fn element(&mut self, depth: u32) {
        if self.r.percent(self.taste.static_block) {
            return self.statements(33, depth);
        }
        let is_static = u32::from(self.r.percent(self.taste.is_static));
        let decorated = self.taste.member_decorators;
        if self.r.percent(self.taste.constructor) {
            let code = 4 * u32::from(self.r.percent(60));
            self.put(30, 2 + code);
            self.put(28, 0);
            return self.method(depth, code != 0);
        }
        match self.r.below(3) {
            0 => {
                let code = 4 * u32::from(self.r.percent(70));
                self.put(30, is_static + code);
                self.decorators(depth + 1, decorated);
                self.method(depth, code != 0);
            }
            1 => {
                let value = self.r.percent(50);
                self.put(31, is_static + 2 * u32::from(value));
                self.decorators(depth + 1, decorated);
                self.key(depth + 1);
                if value {
                    self.expression(depth + 1);
                }
            }
            _ => {
                self.put(32, is_static);
                self.decorators(depth + 1, decorated);
                self.key(depth + 1);
            }
        }
    }

    fn method(&mut self, depth: u32, code: bool) {
        self.key(depth + 1);
        self.parameters(depth + 1, self.taste.parameter_decorators);
        if code {
            self.statements(39, depth + 1);
        }
    }

    fn key(&mut self, depth: u32) {
        if self.r.percent(self.taste.expression_key) {
            return self.expression(depth);
        }
        let k = 34 + self.r.below(2);
        let n = self.name();
        self.put(k, n);
        self.reached(depth);
    }

    fn parameters(&mut self, depth: u32, decorated: u32) {
        let at = self.words.len();
        self.put(36, 0);
        self.reached(depth);
        let n = if depth + 2 > self.limit { 0 } else { self.number(3, depth + 1) };
        for _ in 0..n {
            let default = self.r.percent(25);
            self.put(37, u32::from(default));
            self.decorators(depth + 2, decorated);
            if default {
                self.expression(depth + 2);
            }
        }
        self.words[at] = word(36, n);
    }

    fn leaf(&mut self, depth: u32) {
        self.reached(depth);
        if self.symbols > 0 && self.r.percent(60) {
            let s = self.symbol();
            return self.put(9, s);
        }
        match self.r.below(8) {
            k @ 0..4 => {
                let n = self.name();
                self.put([8, 10, 11, 12][k as usize], n);
            }
            k @ 4..7 => self.put(9 + k, 0),
            _ => self.put(16, 0),
        }
    }

    fn expression(&mut self, depth: u32) {
        if !self.goes_on(self.taste.nest, depth + 1) {
            return self.leaf(depth);
        }
        if depth + 2 <= self.limit && self.r.percent(self.taste.class_expression) {
            self.put(20, 0);
            let nameless = self.symbols == 0 || self.r.percent(self.taste.nameless);
            return self.class(depth + 1, nameless, false);
        }
        if depth + 2 <= self.limit && self.r.percent(self.taste.class_statement / 2) {
            self.put(21, 0);
            self.parameters(depth + 1, 0);
            return self.statements(39, depth + 1);
        }
        match self.r.below(9) {
            0 => {
                let n = self.number(3, depth + 1);
                self.put(16, n);
                self.children(n, depth);
            }
            1 | 2 => {
                let n = self.number(2, depth + 1);
                self.put(17, n);
                self.children(n + 1, depth);
            }
            3 | 4 if self.symbols > 0 => {
                let s = self.symbol();
                self.put(18, s);
                self.children(1, depth);
            }
            5 => {
                let private = self.r.percent(self.taste.private_in);
                let n = self.name();
                self.put(if private { 19 } else { 23 }, n);
                self.children(1, depth);
            }
            6 => {
                let n = 2 + 2 * self.r.below(2);
                self.put(22, n);
                self.children(n, depth);
            }
            7 => {
                self.put(24, 0);
                self.children(1, depth);
            }
            _ => {
                let n = self.number(3, depth + 1);
                let form = *self.r.one(&[0, 1, 7, (1 << 18) - 1]);
                self.put(25, 256 * form + n);
                self.children(n, depth);
            }
        }
    }

    fn children(&mut self, n: u32, depth: u32) {
        self.reached(depth);
        for _ in 0..n {
            self.expression(depth + 1);
        }
    }
}

/// A copy with one to three faults, some of which may leave it a module.
pub fn damaged(r: &mut Random, mut m: Vec<u32>) -> Vec<u32> {
    let times = if r.percent(80) { 1 } else { 2 + r.below(2) };
    for _ in 0..times {
        damage(r, &mut m);
        if m.is_empty() {
            break;
        }
    }
    m
}

fn damage(r: &mut Random, m: &mut Vec<u32>) {
    let n = m.len() as u32;
    let at = r.below(n) as usize;
    let (k, p) = (kind(m[at]), payload(m[at]));
    match r.below(16) {
        0 => m[at] = word(r.below(64), p),
        1 => m[at] = word(r.below(42), p),
        2 => m[at] = word(k, p ^ 1),
        3 => m[at] = word(k, (p + 1) & 0x3ff_ffff),
        4 => m[at] = word(k, p.saturating_sub(1)),
        5 => m[at] = word(k, *r.one(&[0, 1, 2, 3, 4, 5, 7, 8, 256, 1_000_000, 1_000_001, (1 << 26) - 1])),
        6 => m.truncate(at),
        7 => {
            let w = *r.one(m);
            m.push(w);
        }
        8 => {
            let w = *r.one(m);
            m.insert(at, w);
        }
        9 => {
            m.remove(at);
        }
        10 => {
            let other = r.below(n) as usize;
            m.swap(at, other);
        }
        // A symbol at S, next to it or far off.
        11 | 12 => {
            let symbols = if m.len() > 1 { payload(m[1]) } else { 0 };
            let places: Vec<usize> = (0..m.len()).filter(|i| matches!(kind(m[*i]), 5 | 6 | 7 | 9 | 18 | 27)).collect();
            if !places.is_empty() {
                let i = *r.one(&places);
                let s = *r.one(&[symbols, symbols, symbols + 1, symbols.saturating_sub(1), (1 << 26) - 1]);
                m[i] = word(kind(m[i]), s);
            }
        }
        // S lower than a symbol, or beyond what is allowed.
        13 if m.len() > 1 => {
            let s = payload(m[1]);
            m[1] = word(40, *r.one(&[s.saturating_sub(1), s / 2, 0, 1, MOST_SYMBOLS, MOST_SYMBOLS + 1, (1 << 26) - 1]));
        }
        // Decorators where a constructor's own, or a function's parameter's, must be empty.
        14 => {
            let places: Vec<usize> = (0..m.len()).filter(|i| kind(m[*i]) == 28).collect();
            if !places.is_empty() {
                let i = *r.one(&places);
                m[i] += 1;
                m.insert(i + 1, word(8, 0));
            }
        }
        // A method that becomes a constructor, with its decorators.
        15 => {
            let places: Vec<usize> = (0..m.len()).filter(|i| kind(m[*i]) == 30).collect();
            if !places.is_empty() {
                let i = *r.one(&places);
                m[i] ^= 2;
            }
        }
        _ => m[0] = word(1, payload(m[0]) + 1),
    }
}

/// An alphabet, and how long its lists get in a short run and in a long one.
pub struct Alphabet {
    pub title: &'static str,
    pub words: Vec<u32>,
    pub short: usize,
    pub long: usize,
}

/// The alphabets of the exhaustive part.
pub fn alphabets() -> Vec<Alphabet> {
    let every = (0..64).flat_map(|k| (0..4).map(move |p| word(k, p))).collect();
    let of = |title, text, short, long| Alphabet { title, words: parsed(text), short, long };
    vec![
        Alphabet { title: "every kind, payloads 0 to 3", words: every, short: 4, long: 5 },
        of(
            "statements and expressions",
            "1:1 40:2 2:0 3:2 5:1 6:0 8:9 9:0 9:2 10:0 13:0 16:2 17:1 18:0 19:0 21:0 36:0 39:1 22:2 23:3 24:0 25:2",
            8,
            9,
        ),
        of("classes and members", "1:1 40:1 4:0 4:1 4:2 26:0 26:1 28:0 28:1 27:0 29:0 29:1 31:0 31:1 9:0 19:0 33:0 34:3 35:3", 18, 20),
        of("two members", "1:1 40:1 4:0 4:2 26:0 26:1 28:0 28:1 27:0 29:2 31:1 32:0 9:0 10:1 34:3 19:0", 15, 18),
        of("constructors", "1:1 40:1 4:0 4:2 26:0 26:1 28:0 28:1 27:0 29:1 29:2 30:2 30:6 36:0 36:1 37:0 39:0 9:0 34:0", 24, 28),
        of("classes in classes", "1:1 40:1 4:0 26:1 28:0 28:1 27:0 29:0 29:1 31:2 33:1 34:0 9:0 20:0 2:0", 21, 24),
        of("classes in decorators", "1:1 40:1 4:0 26:1 28:0 28:1 27:0 29:0 29:1 32:1 34:0 9:0 19:0 21:0 36:0 39:1", 22, 25),
        of(
            "flags and places",
            "1:1 40:1 3:1 4:0 4:1 4:2 4:3 26:0 26:1 26:2 26:3 26:4 26:5 26:6 26:7 26:8 28:0 27:0 29:0 29:1 20:0 2:0 9:0 30:1 30:3 30:7 34:0 36:0 39:0",
            15,
            17,
        ),
    ]
}

/// Hands out every list of at most `longest` words over the alphabet whose proper prefixes could all still become a module, and each
/// accepted one with a word too many. Stops when it is told false.
pub fn each_short(alphabet: &[u32], longest: usize, f: &mut dyn FnMut(&[u32]) -> bool) -> bool {
    f(&[]) && extend(alphabet, longest, &mut Vec::new(), f)
}

fn extend(alphabet: &[u32], longest: usize, prefix: &mut Vec<u32>, f: &mut dyn FnMut(&[u32]) -> bool) -> bool {
    for w in alphabet {
        prefix.push(*w);
        let mut go_on = f(prefix);
        match reading::read(prefix) {
            Ok(_) => {
                prefix.push(alphabet[0]);
                go_on = go_on && f(prefix);
                prefix.pop();
            }
            Err(fault) if fault.at == prefix.len() && prefix.len() < longest => go_on = go_on && extend(alphabet, longest, prefix, f),
            Err(_) => {}
        }
        prefix.pop();
        if !go_on {
            return false;
        }
    }
    true
}
