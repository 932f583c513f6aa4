//! What an accepted module has, so that a run says what it tried and a choice of modules covers it.

use crate::rewriting::{Need, Rewritten};

/// A name, and whether a rewritten module has it.
pub type Feature = (&'static str, fn(&Rewritten) -> bool);

/// What accepted modules are counted by, and chosen by for the replay.
pub const FEATURES: [Feature; 22] = [
    ("a live class", |r| r.seen.live > 0),
    ("a decorated class", |r| r.seen.decorated > 0),
    ("a nameless default export", |r| r.seen.nameless_live > 0),
    ("a default symbol", |r| has(r, Need::Default)),
    ("a declare class", |r| r.seen.declare > 0),
    ("a class expression", |r| r.seen.expressions > 0),
    ("member calls", |r| r.seen.member_calls > 0),
    ("dropped member decorators", |r| r.seen.dropped > 0),
    ("a computed key's symbol", |r| has(r, Need::Key)),
    ("an alias", |r| has(r, Need::Alias)),
    ("two aliases or more", |r| r.fresh.iter().filter(|f| f.0 == Need::Alias).count() > 1),
    ("an alias block in front", |r| r.seen.alias_blocks > 0),
    ("private-in in a live class's decorators", |r| r.seen.private_in > 0),
    ("private-in, the class decorated", |r| r.seen.private_in_decorated > 0),
    ("private-in and an alias", |r| r.seen.private_in_decorated > 0 && has(r, Need::Alias)),
    ("a codeless first constructor, decorated class", |r| r.seen.codeless_first_constructors > 0),
    ("an export behind a let", |r| r.seen.exports > 0),
    ("nested classes", |r| r.seen.nested > 0),
    ("nested classes with one symbol", |r| r.seen.nested_same_symbol > 0),
    ("classes nested four deep or more", |r| r.seen.deepest_class >= 4),
    ("ten fresh symbols or more", |r| r.fresh.len() >= 10),
    ("nothing to rewrite", |r| r.fresh.is_empty() && r.seen.member_calls == 0 && r.seen.dropped == 0),
];

fn has(r: &Rewritten, need: Need) -> bool {
    r.fresh.iter().any(|f| f.0 == need)
}
