//! A second reading of document 01 in plain Rust: boxed trees and `Vec`, written from its rules and for tests only.
//! It shares no code and no table with the proved crates, so that a rule read differently shows as a difference. It is not the pass of
//! oxc_transformer, and nothing that is shipped links it.

pub mod comparison;
pub mod features;
pub mod generator;
pub mod reading;
pub mod rewriting;
pub mod tree;

#[cfg(test)]
mod tests;

use rewriting::Rewritten;

/// The most words that a module may have.
pub const MOST_WORDS: usize = 4096;
/// The deepest record that a module may have, the module itself at 1.
pub const MOST_DEPTH: u32 = 64;
/// The most symbols that a module may have.
pub const MOST_SYMBOLS: u32 = 1_000_000;

/// The answer to a module before any output is lent.
pub enum Verdict {
    /// Refusals 1 to 7.
    Refused(u8),
    Accepted(Box<Rewritten>),
}

/// Judges a module's bytes by refusals 1 to 7, and rewrites it.
pub fn judge(module: &[u8]) -> Verdict {
    if !module.len().is_multiple_of(4) {
        return Verdict::Refused(1);
    }
    judge_words(&words_of(module))
}

/// Judges a module's words by refusals 1 to 7, and rewrites it.
pub fn judge_words(words: &[u32]) -> Verdict {
    match reading::read(words) {
        Err(fault) => Verdict::Refused(fault.code),
        Ok(module) => match rewriting::rewrite(module) {
            Err(rewriting::NoDecorator) => Verdict::Refused(7),
            Ok(rewritten) => Verdict::Accepted(Box::new(rewritten)),
        },
    }
}

/// The three numbers as the C entry returns them.
pub fn packed(code: u8, written: usize, fresh: usize) -> u64 {
    u64::from(code) | (written as u64) << 8 | (fresh as u64) << 36
}

/// What the C entry for the rewriting must do: bytes in, bytes out.
pub fn rewrite_bytes(module: &[u8], out: &mut [u8]) -> u64 {
    match judge(module) {
        Verdict::Refused(code) => packed(code, 0, 0),
        Verdict::Accepted(r) => handed_out(&r.words, r.fresh.len(), out),
    }
}

/// What the C entry for the symbol report must do, up to the order of its words.
pub fn report_bytes(module: &[u8], out: &mut [u8]) -> u64 {
    match judge(module) {
        Verdict::Refused(code) => packed(code, 0, 0),
        Verdict::Accepted(r) => handed_out(&r.report(), r.fresh.len(), out),
    }
}

fn handed_out(words: &[u32], fresh: usize, out: &mut [u8]) -> u64 {
    if out.len() / 4 < words.len() {
        return packed(8, 0, 0);
    }
    for (place, word) in out.chunks_exact_mut(4).zip(words) {
        place.copy_from_slice(&word.to_le_bytes());
    }
    packed(0, words.len(), fresh)
}

/// Four bytes to a word, lowest first; bytes behind the last whole word don't count.
pub fn words_of(bytes: &[u8]) -> Vec<u32> {
    bytes.chunks_exact(4).map(|b| u32::from_le_bytes([b[0], b[1], b[2], b[3]])).collect()
}

pub fn bytes_of(words: &[u32]) -> Vec<u8> {
    words.iter().flat_map(|w| w.to_le_bytes()).collect()
}

/// The top 6 bits of a word.
pub fn kind(word: u32) -> u32 {
    word >> 26
}

/// The low 26 bits of a word.
pub fn payload(word: u32) -> u32 {
    word & 0x3ff_ffff
}

pub fn word(kind: u32, payload: u32) -> u32 {
    debug_assert!(kind < 64 && payload < 1 << 26);
    kind << 26 | payload
}

/// Words as kind:payload.
pub fn shown(words: &[u32]) -> String {
    let parts: Vec<String> = words.iter().map(|w| format!("{}:{}", kind(*w), payload(*w))).collect();
    parts.join(" ")
}

/// The words of a text of kind:payload.
pub fn parsed(text: &str) -> Vec<u32> {
    text.split_whitespace()
        .map(|part| {
            let (k, p) = part.split_once(':').expect("kind:payload");
            word(k.parse().expect("a kind"), p.parse().expect("a payload"))
        })
        .collect()
}
