//! Document 01's example, and cases worked out by hand from its rules and its table of refusals.

use crate::comparison::{Comparison, Entries, Entry, shrunk};
use crate::generator::{self, Origin, Random};
use crate::reading::{self, Fault};
use crate::{Verdict, bytes_of, judge, judge_words, packed, parsed, report_bytes, rewrite_bytes, shown, word};

/// The words that a module becomes.
fn becomes(module: &str, expected: &str) {
    match judge_words(&parsed(module)) {
        Verdict::Accepted(r) => assert_eq!(shown(&r.words), expected),
        Verdict::Refused(code) => panic!("refused with {code}"),
    }
}

fn fresh(module: &str, expected: &str) {
    match judge_words(&parsed(module)) {
        Verdict::Accepted(r) => assert_eq!(shown(&r.report()), expected),
        Verdict::Refused(code) => panic!("refused with {code}"),
    }
}

fn refused(words: &[u32]) -> u8 {
    match judge_words(words) {
        Verdict::Refused(code) => code,
        Verdict::Accepted(_) => 0,
    }
}

fn fault(module: &str) -> Fault {
    reading::read(&parsed(module)).err().expect("a fault")
}

const EXAMPLE: &str = "1:1 40:3 4:0 26:1 28:1 9:0 27:2 29:1 30:4 28:1 9:1 34:5 36:0 39:0";
const EXAMPLE_OUT: &str = "1:3 40:4 5:2 20:0 26:1 28:0 27:3 29:1 30:4 28:0 34:5 36:0 39:0 2:0 22:4 16:1 9:1 24:0 9:2 10:5 13:0 \
    2:0 18:2 22:2 16:1 9:0 9:2";

#[test]
fn the_example() {
    becomes(EXAMPLE, EXAMPLE_OUT);
    fresh(EXAMPLE, "3:3");
}

#[test]
fn the_bytes_of_the_example() {
    let module = bytes_of(&parsed(EXAMPLE));
    let expected = bytes_of(&parsed(EXAMPLE_OUT));
    let mut out = vec![0xee; expected.len() + 3];
    assert_eq!(rewrite_bytes(&module, &mut out), packed(0, 27, 1));
    assert_eq!(out[..expected.len()], expected);
    assert_eq!(out[expected.len()..], [0xee; 3]);
    let mut out = vec![0xee; expected.len() - 1];
    assert_eq!(rewrite_bytes(&module, &mut out), packed(8, 0, 0));
    assert!(out.iter().all(|b| *b == 0xee));
    let mut out = vec![0xee; 4];
    assert_eq!(report_bytes(&module, &mut out), packed(0, 1, 1));
    assert_eq!(out, bytes_of(&[word(3, 3)]));
    assert_eq!(report_bytes(&module, &mut out[..3]), packed(8, 0, 0));
}

#[test]
fn symbols_in_order_of_need() {
    // export default class { @0 [f(class D { @0 static [1]() }, ..)] }: the inner class is an expression and takes nothing, the outer takes
    // its default symbol and then the key's.
    fresh("1:1 40:2 4:2 26:0 28:0 29:1 31:0 28:1 9:0 17:1 9:1 20:0 26:0 28:0 29:1 32:1 28:1 9:0 9:1", "1:2 2:3");
    // @0 export default class {}: the default symbol under rule 6.
    fresh("1:1 40:1 4:2 26:0 28:1 9:0 29:0", "1:1");
    // @0 class C1 { @0 [0]; [1] }: key, inner, alias.
    fresh("1:1 40:2 4:0 26:1 28:1 9:0 27:1 29:2 31:0 28:1 9:0 9:0 31:0 28:0 9:1", "2:2 3:3 4:4");
}

#[test]
fn members_of_other_classes_lose_their_decorators() {
    // declare class: the member's and its parameters' go, the class's and the constructor's parameters' stay.
    becomes(
        "1:1 40:1 4:0 26:3 28:1 9:0 27:0 29:2 30:0 28:1 9:0 9:0 36:1 37:0 28:1 9:0 30:2 28:0 34:1 36:1 37:0 28:1 9:0",
        "1:1 40:1 4:0 26:3 28:1 9:0 27:0 29:2 30:0 28:0 9:0 36:1 37:0 28:0 30:2 28:0 34:1 36:1 37:0 28:1 9:0",
    );
    // A class statement in a dropped decorator still takes its symbol.
    fresh("1:1 40:1 2:0 20:0 26:0 28:0 29:1 31:0 28:1 21:0 36:0 39:1 4:0 26:1 28:1 9:0 27:0 29:0 34:1", "3:1");
}

#[test]
fn a_call_with_parameters() {
    // class C1 { @0 static m(@8:7 x, y = 8:6, @0 @8:5 z) {} }
    becomes(
        "1:1 40:2 4:0 26:1 28:0 27:1 29:1 30:5 28:1 9:0 35:4 36:3 37:0 28:1 8:7 37:1 28:0 8:6 37:0 28:2 9:0 8:5 39:0",
        "1:2 40:2 4:0 26:1 28:0 27:1 29:1 30:5 28:0 35:4 36:3 37:0 28:0 37:1 28:0 8:6 37:0 28:0 39:0 \
         2:0 22:4 16:4 9:0 23:0 8:7 23:2 9:0 23:2 8:5 9:1 10:0 13:0",
    );
}

#[test]
fn names_of_keys() {
    for (key, name) in [("34:3", "10:3"), ("35:3", "10:0"), ("10:3", "10:3"), ("11:3", "11:3"), ("12:3", "12:3"), ("13:0", "13:0")] {
        becomes(
            &format!("1:1 40:1 4:0 26:1 28:0 27:0 29:1 32:0 28:1 9:0 {key}"),
            &format!("1:2 40:1 4:0 26:1 28:0 27:0 29:1 32:0 28:0 {key} 2:0 22:4 16:1 9:0 24:0 9:0 {name} 13:0"),
        );
    }
    for key in ["14:0", "15:0", "9:0", "8:3", "16:0", "18:0 8:1"] {
        becomes(
            &format!("1:1 40:1 4:0 26:1 28:0 27:0 29:1 31:1 28:1 9:0 {key}"),
            &format!("1:2 40:2 4:0 26:1 28:0 27:0 29:1 31:1 28:0 18:1 {key} 2:0 22:4 16:1 9:0 9:0 9:1 14:0"),
        );
    }
}

#[test]
fn the_alias_is_sought_in_the_body_only() {
    // @f(C) class C extends C { @C m(){ C } }
    becomes(
        "1:1 40:1 4:0 26:5 28:1 9:0 27:0 9:0 29:1 30:4 28:1 9:0 34:1 36:0 39:1 2:0 9:0",
        "1:3 40:3 5:0 18:2 20:0 26:5 28:0 27:1 9:0 29:1 30:4 28:0 34:1 36:0 39:1 2:0 9:2 \
         2:0 22:4 16:1 9:0 24:0 9:0 10:1 13:0 2:0 18:0 18:2 22:2 16:1 9:0 9:0",
    );
    // class C { constructor(@C x) }: the parameter's decorator is still in the body.
    becomes(
        "1:1 40:1 4:0 26:1 28:0 27:0 29:1 30:2 28:0 34:1 36:1 37:0 28:1 9:0",
        "1:2 40:3 5:0 18:2 20:0 26:1 28:0 27:1 29:1 30:2 28:0 34:1 36:1 37:0 28:0 2:0 18:0 18:2 22:2 16:1 23:0 9:2 9:0",
    );
}

#[test]
fn the_alias_of_a_class_around_reaches_the_queue_of_an_inner_one() {
    // @8 class C { static { class C { @8 p } } }, both with symbol 0: the inner call names C, and so does the alias search of the outer.
    becomes(
        "1:1 40:1 4:0 26:1 28:1 8:0 27:0 29:1 33:1 4:0 26:1 28:0 27:0 29:1 31:0 28:1 8:1 34:1",
        "1:2 40:3 5:0 20:0 26:1 28:0 27:1 29:2 33:1 2:0 18:2 15:0 33:2 4:0 26:1 28:0 27:0 29:1 31:0 28:0 34:1 \
         2:0 22:4 16:1 8:1 24:0 9:2 10:1 14:0 2:0 18:0 18:2 22:2 16:1 8:0 9:0",
    );
}

#[test]
fn an_alias_with_a_static_property() {
    // @8 export class C { static accessor; C } keeps the alias in the let, since an accessor is no property.
    becomes(
        "1:1 40:1 4:1 26:1 28:1 8:0 27:0 29:1 32:1 28:0 9:0",
        "1:3 40:3 5:0 18:2 20:0 26:1 28:0 27:1 29:1 32:1 28:0 9:2 2:0 18:0 18:2 22:2 16:1 8:0 9:0 6:0",
    );
    becomes(
        "1:1 40:1 4:1 26:1 28:1 8:0 27:0 29:1 31:1 28:0 9:0",
        "1:3 40:3 5:0 20:0 26:1 28:0 27:1 29:2 33:1 2:0 18:2 15:0 31:1 28:0 9:2 2:0 18:0 18:2 22:2 16:1 8:0 9:0 6:0",
    );
}

#[test]
fn private_in() {
    // @(#1 in 8) export class C { C }: no assignment, no export, an empty block, the alias taken but nowhere assigned.
    becomes("1:1 40:1 4:1 26:1 28:1 19:1 8:0 27:0 29:1 31:0 28:0 9:0", "1:1 40:3 4:1 26:1 28:0 27:1 29:2 31:0 28:0 9:2 33:0");
    // The same with a static member of which the decorator names C: the block in front, the call with C behind.
    becomes(
        "1:1 40:1 4:0 26:1 28:1 19:1 8:0 27:0 29:1 31:3 28:1 9:0 34:1 9:0",
        "1:1 40:3 4:0 26:1 28:0 27:1 29:3 33:1 2:0 18:2 15:0 31:3 28:0 34:1 9:2 33:1 2:0 22:4 16:1 9:0 9:0 10:1 14:0",
    );
    // A nameless undecorated class takes the default symbol as id.
    becomes(
        "1:1 40:1 4:2 26:0 28:0 29:1 31:0 28:1 19:1 8:0 34:1",
        "1:1 40:2 4:2 26:1 28:0 27:1 29:2 31:0 28:0 34:1 33:1 2:0 22:4 16:1 19:1 8:0 24:0 9:1 10:1 14:0",
    );
    // A nameless decorated one stays nameless, and its symbol is taken.
    becomes("1:1 40:1 4:2 26:0 28:1 19:1 8:0 29:0", "1:1 40:2 4:2 26:0 28:0 29:1 33:0");
    // In a key and in a value it isn't a decorator's.
    becomes(
        "1:1 40:1 4:0 26:1 28:0 27:0 29:1 31:2 28:1 8:0 34:1 19:1 8:0",
        "1:2 40:1 4:0 26:1 28:0 27:0 29:1 31:2 28:0 34:1 19:1 8:0 2:0 22:4 16:1 8:0 24:0 9:0 10:1 14:0",
    );
}

#[test]
fn exports() {
    becomes("1:1 40:1 4:2 26:0 28:1 9:0 29:0", "1:3 40:2 5:1 20:0 26:0 28:0 29:0 2:0 18:1 22:2 16:1 9:0 9:1 7:1");
    becomes("1:1 40:1 4:2 26:1 28:1 9:0 27:0 29:0", "1:3 40:2 5:0 20:0 26:1 28:0 27:1 29:0 2:0 18:0 22:2 16:1 9:0 9:0 7:0");
}

#[test]
fn constructors() {
    // The first one gives up its decorators, the second keeps them.
    becomes(
        "1:1 40:1 4:0 26:1 28:0 27:0 29:2 30:2 28:0 34:1 36:1 37:0 28:1 8:0 30:6 28:0 34:1 36:1 37:0 28:1 8:1 39:0",
        "1:2 40:2 5:0 20:0 26:1 28:0 27:1 29:2 30:2 28:0 34:1 36:1 37:0 28:0 30:6 28:0 34:1 36:1 37:0 28:1 8:1 39:0 \
         2:0 18:0 22:2 16:1 23:0 8:0 9:0",
    );
    let second_only = "29:2 30:2 28:0 34:1 36:0 30:2 28:0 34:1 36:1 37:0 28:1 8:1";
    assert_eq!(refused(&parsed(&format!("1:1 40:1 4:0 26:1 28:0 27:0 {second_only}"))), 7);
    assert_eq!(refused(&parsed(&format!("1:1 40:1 4:0 26:1 28:1 8:0 27:0 {second_only}"))), 0);
    assert_eq!(refused(&parsed(&format!("1:1 40:1 4:0 26:3 28:0 27:0 {second_only}"))), 0);
    assert_eq!(refused(&parsed(&format!("1:1 40:1 2:0 20:0 26:0 28:0 {second_only}"))), 0);
}

#[test]
fn the_first_word_at_fault() {
    assert_eq!(fault("1:1 40:0 2:1"), Fault { code: 2, at: 2 });
    assert_eq!(fault("1:1 40:0 2:0"), Fault { code: 2, at: 3 });
    assert_eq!(fault("1:0 40:0 3:0"), Fault { code: 2, at: 2 });
    assert_eq!(fault("1:1 40:1000001 2:1"), Fault { code: 5, at: 1 });
    assert_eq!(fault("1:2 40:1 2:0 9:1 2:1"), Fault { code: 4, at: 3 });
    assert_eq!(fault("1:1 40:1 3:1 6:0"), Fault { code: 2, at: 3 });
    assert_eq!(fault("1:1 40:1 3:1 4:1"), Fault { code: 2, at: 3 });
    assert_eq!(fault("1:1 40:1 4:1 26:0"), Fault { code: 2, at: 3 });
    assert_eq!(fault("1:1 40:1 4:2 26:2"), Fault { code: 2, at: 3 });
    assert_eq!(fault("1:1 40:1 2:0 20:0 26:2"), Fault { code: 2, at: 4 });
    assert_eq!(fault("1:1 40:1 2:0 20:0 26:0 28:0 29:1 30:3"), Fault { code: 2, at: 7 });
    assert_eq!(fault("1:1 40:1 2:0 20:0 26:0 28:0 29:1 30:2 28:1"), Fault { code: 6, at: 8 });
    assert_eq!(fault("1:1 40:1 2:0 21:0 36:1 37:0 28:1"), Fault { code: 2, at: 6 });
    assert_eq!(fault("1:1 40:1 2:0 22:3"), Fault { code: 2, at: 3 });
    assert_eq!(judge_words(&[]).code(), 1);
    assert_eq!(judge(&[0; 7]).code(), 1);
}

#[test]
fn depth() {
    for (blocks, code) in [(62, 0), (63, 3), (64, 3)] {
        // The module is at 1, the first block at 2, the innermost at 1 + blocks; the leaf below them at 2 + blocks.
        let mut m = parsed("1:1 40:0");
        m.extend(vec![word(3, 1); blocks]);
        m.push(word(3, 0));
        assert_eq!(refused(&m), code, "{blocks} blocks");
        // A wrong kind at the same depth is the lower number.
        *m.last_mut().unwrap() = word(63, 0);
        assert_eq!(refused(&m), if code == 3 && blocks == 64 { 3 } else { 2 }, "{blocks} blocks");
    }
}

#[test]
fn length() {
    for (n, code) in [(4096, 0), (4097, 1)] {
        let mut m = vec![word(1, n - 2), word(40, 0)];
        m.resize(n as usize, word(3, 0));
        assert_eq!(refused(&m), code);
    }
}

impl Verdict {
    fn code(&self) -> u8 {
        match self {
            Verdict::Refused(code) => *code,
            Verdict::Accepted(_) => 0,
        }
    }
}

#[test]
fn what_the_generator_makes() {
    let (mut accepted, mut damaged) = (0, 0);
    for index in 0..3000 {
        let (origin, m) = generator::case(5, index);
        let code = judge_words(&m).code();
        match origin {
            Origin::Good => assert!(code == 0 || code == 7, "{}", shown(&m)),
            Origin::Deep => assert!(matches!(code, 0 | 3 | 7), "{}", shown(&m)),
            Origin::Large => assert!(matches!(code, 0 | 1 | 7), "{} words", m.len()),
            Origin::Damaged | Origin::Exhaustive => damaged += u32::from(code != 0),
        }
        accepted += u32::from(code == 0);
    }
    assert!(accepted > 1500 && damaged > 500);
}

#[test]
fn every_short_list() {
    let mut lists = Vec::new();
    generator::each_short(&parsed("1:0 1:1 40:0 3:0"), 3, &mut |m| {
        lists.push(shown(m));
        true
    });
    let from_1_1 = "1:1,1:1 1:0,1:1 1:1,1:1 40:0,1:1 40:0 1:0,1:1 40:0 1:1,1:1 40:0 40:0,1:1 40:0 3:0,1:1 40:0 3:0 1:0,1:1 3:0";
    let from_1_0 = "1:0,1:0 1:0,1:0 1:1,1:0 40:0,1:0 40:0 1:0,1:0 3:0";
    assert_eq!(lists.join(","), format!(",{from_1_0},{from_1_1},40:0,3:0"));
}

const SAME: Entries = Entries { rewrite: rewrite_bytes, report: report_bytes };

#[test]
fn no_difference_from_itself() {
    let mut c = Comparison::new(SAME);
    for index in 0..2000 {
        let (origin, m) = generator::case(6, index);
        c.case(&m, origin, &mut Random::new(7, index)).unwrap();
    }
}

/// Calls that are wrong in one way each.
const WRONG: [Entry; 7] = [
    // A number that is wrong: the fresh symbols, a refusal.
    |m, out| rewrite_bytes(m, out) + (1 << 36) * u64::from(m.len() == 56),
    |m, out| match rewrite_bytes(m, out) {
        7 => 6,
        n => n,
    },
    // A word, a byte behind the words, a byte after a refusal.
    |m, out| {
        let n = rewrite_bytes(m, out);
        if n & 0xff == 0 && m.len() == 56 {
            out[4] ^= 1;
        }
        n
    },
    |m, out| {
        let n = rewrite_bytes(m, out);
        let end = 4 * (n >> 8 & 0xfff_ffff) as usize;
        if n & 0xff == 0 && end < out.len() {
            out[end] ^= 0x80;
        }
        n
    },
    |m, out| {
        let n = rewrite_bytes(m, out);
        if n == 4 && !out.is_empty() {
            out[0] ^= 1;
        }
        n
    },
    // An exact fit refused, and one word too few written.
    |m, out| match rewrite_bytes(m, out) {
        n if n & 0xff == 0 && 4 * (n >> 8 & 0xfff_ffff) == out.len() as u64 => 8,
        n => n,
    },
    |m, out| {
        let mut large = vec![0; 50_000];
        let n = rewrite_bytes(m, &mut large);
        let fits = large.len().min(out.len());
        out[..fits].copy_from_slice(&large[..fits]);
        n
    },
];

#[test]
fn every_difference_is_found() {
    let modules = [EXAMPLE, "1:1 40:0 2:0 9:0", "1:1 40:1 4:0 26:1 28:0 27:0 29:2 30:2 28:0 34:1 36:0 30:2 28:0 34:1 36:1 37:0 28:1 8:1"];
    for (i, rewrite) in WRONG.into_iter().enumerate() {
        let mut c = Comparison::new(Entries { rewrite, ..SAME });
        assert!(modules.iter().any(|m| c.with_all_lengths(&bytes_of(&parsed(m))).is_err()), "wrong call {i}");
    }
}

#[test]
fn every_difference_of_a_report_is_found() {
    // Two keys and a default symbol: any order is right; a word twice, or of another kind, isn't.
    let module = bytes_of(&parsed("1:1 40:1 4:2 26:0 28:0 29:2 31:0 28:1 9:0 9:0 31:0 28:1 9:0 9:0"));
    let reversed: Entry = |m, out| {
        let n = report_bytes(m, out);
        if n & 0xff == 0 && n >> 36 == 3 {
            let (first, rest) = out.split_at_mut(4);
            first.swap_with_slice(&mut rest[4..8]);
        }
        n
    };
    assert_eq!(Comparison::new(Entries { report: reversed, ..SAME }).with_all_lengths(&module), Ok(()));
    let twice: Entry = |m, out| {
        let n = report_bytes(m, out);
        if n & 0xff == 0 && n >> 36 == 3 {
            out.copy_within(0..4, 4);
        }
        n
    };
    assert!(Comparison::new(Entries { report: twice, ..SAME }).with_all_lengths(&module).is_err());
    let other_kind: Entry = |m, out| {
        let n = report_bytes(m, out);
        if n & 0xff == 0 && n >> 36 == 3 {
            out[3] ^= 8;
        }
        n
    };
    assert!(Comparison::new(Entries { report: other_kind, ..SAME }).with_all_lengths(&module).is_err());
}

#[test]
fn a_difference_is_made_smaller() {
    // Wrong wherever a 19 is read, so that the smallest module has little more.
    let wrong: Entry = |m, out| match rewrite_bytes(m, out) {
        n if n & 0xff == 0 && m.chunks(4).any(|w| w[3] >> 2 == 19) => n + 256,
        n => n,
    };
    let module = parsed("1:2 40:2 4:0 26:1 28:1 9:0 27:1 29:1 31:2 28:0 34:1 17:1 9:0 19:3 9:1 3:1 2:0 8:5");
    assert_eq!(shown(&shrunk(&module, Entries { rewrite: wrong, ..SAME })), "1:1 40:0 2:0 19:0 8:0");
}
