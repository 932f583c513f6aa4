//! Gingerpost: rewrites the decorated classes of a module. A safe interface to the proved C entry, `libhost.a` of `tools/build archive`.
//!
//! A module is a list of 32-bit words; docs/FORMAT.md says which, and [`word`] makes one of a kind and a payload. [`rewritten`] takes and returns
//! words and is what most hosts want. [`rewrite`] works on bytes in buffers of the caller, four to a word, lowest first, and allocates nothing.
//!
//! ```
//! use gingerpost::{rewritten, word, Refusal};
//!
//! // @a class C {}, with a and C as the symbols 0 and 1
//! let module = [word(1, 1), word(40, 2), word(4, 0), word(26, 1), word(28, 1), word(9, 0), word(27, 1), word(29, 0)];
//! let answer = rewritten(&module).expect("it is well formed");
//! assert_eq!(answer.fresh, 1);
//! assert_eq!(answer.words[..3], [word(1, 2), word(40, 3), word(5, 1)]);
//!
//! assert_eq!(rewritten(&module[..7]), Err(Refusal::Malformed));
//! ```
//!
//! The calls keep no state and may run in several threads at once. A call takes less than [`STACK`] bytes of stack.

use std::fmt;

/// The most bytes of a module.
pub const MODULE_MAX: usize = 16384;

/// Bytes of output that are enough for every module. Three times the module's bytes are enough for that module.
pub const OUT_MAX: usize = 49152;

/// Bytes of output that are enough for the report of every module. A third of the module's bytes are enough for that module.
pub const REPORT_MAX: usize = 5460;

/// A call takes fewer bytes of stack than this, by measurement; the deepest modules take the most.
pub const STACK: usize = 196608;

#[link(name = "host", kind = "static")]
extern "C" {
    fn gingerpost_rewrite(module: *const u8, module_len: usize, out: *mut u8, out_len: usize) -> u64;
    fn gingerpost_report(module: *const u8, module_len: usize, out: *mut u8, out_len: usize) -> u64;
}

/// The three answers of a call.
#[derive(Clone, Copy, Debug, PartialEq, Eq)]
pub struct Answer {
    /// 0, or the number of the refusal.
    pub code: u8,
    /// The words written to the start of the output; 0 after a refusal.
    pub written: u32,
    /// The fresh symbols taken; 0 after a refusal.
    pub fresh: u32,
}

impl Answer {
    fn of(number: u64) -> Answer {
        Answer { code: number as u8, written: (number >> 8 & 0xfff_ffff) as u32, fresh: (number >> 36) as u32 }
    }

    /// Why the module was refused, if it was.
    pub fn refusal(self) -> Option<Refusal> {
        Refusal::of(self.code)
    }
}

/// Why a module is refused. 1 is judged first; then the words are read from left to right and the first one at fault decides, the lower number
/// winning there; then 7, then 8.
#[derive(Clone, Copy, Debug, PartialEq, Eq)]
pub enum Refusal {
    /// No words, more than 4,096, or bytes that are no multiple of 4.
    BadLength = 1,
    /// A kind, payload or flag that isn't allowed where it stands, words that end inside a record, or words left over.
    Malformed = 2,
    /// A record is more than 64 deep, the module itself being 1 deep.
    TooDeep = 3,
    /// A symbol is S or more, S being the payload of the module's 40.
    UnknownSymbol = 4,
    /// S is more than 1,000,000.
    TooManySymbols = 5,
    /// A constructor has decorators of its own.
    DecoratedConstructor = 6,
    /// A later constructor's parameters are decorated, but neither the class nor its first constructor's parameters.
    LaterConstructor = 7,
    /// The output is shorter than the answer.
    ShortOutput = 8,
}

impl Refusal {
    const ALL: [Refusal; 8] = [
        Refusal::BadLength,
        Refusal::Malformed,
        Refusal::TooDeep,
        Refusal::UnknownSymbol,
        Refusal::TooManySymbols,
        Refusal::DecoratedConstructor,
        Refusal::LaterConstructor,
        Refusal::ShortOutput,
    ];

    fn of(code: u8) -> Option<Refusal> {
        Refusal::ALL.into_iter().find(|r| *r as u8 == code)
    }
}

impl fmt::Display for Refusal {
    fn fmt(&self, f: &mut fmt::Formatter) -> fmt::Result {
        f.write_str(match self {
            Refusal::BadLength => "no words, more than 4,096, or bytes that are no multiple of 4",
            Refusal::Malformed => "a word that is not allowed where it stands, an early end, or words left over",
            Refusal::TooDeep => "a record is more than 64 deep",
            Refusal::UnknownSymbol => "a symbol is not one of the module's",
            Refusal::TooManySymbols => "the module has more than 1,000,000 symbols",
            Refusal::DecoratedConstructor => "a constructor is decorated",
            Refusal::LaterConstructor => "a later constructor's parameters are decorated, but neither the class nor its first constructor's parameters",
            Refusal::ShortOutput => "the output is shorter than the answer",
        })
    }
}

impl std::error::Error for Refusal {}

/// Rewrites the module in `module` and writes the rewritten one to the start of `out`, both as bytes, four to a word, lowest first.
///
/// Accepted: the first `4 * written` bytes of `out` hold the rewritten module, the bytes behind them are as they were. Refused: all of `out` is as it
/// was. An output of exactly the answer's length is enough; only its whole words count.
pub fn rewrite(module: &[u8], out: &mut [u8]) -> Answer {
    // Both slices are valid for their lengths, and `out` overlaps nothing, by their types.
    Answer::of(unsafe { gingerpost_rewrite(module.as_ptr(), module.len(), out.as_mut_ptr(), out.len()) })
}

/// Writes the symbol report of the module in `module` to the start of `out`: one word for each fresh symbol that [`rewrite`] takes, in any order. The
/// payload is the symbol, the kind says what it is for: 1 a nameless class, 2 a computed key, 3 the inside of a decorated class, 4 a class's alias.
///
/// It accepts and refuses as [`rewrite`] does, except that [`Refusal::ShortOutput`] is judged by its own length.
pub fn report(module: &[u8], out: &mut [u8]) -> Answer {
    // As in `rewrite`.
    Answer::of(unsafe { gingerpost_report(module.as_ptr(), module.len(), out.as_mut_ptr(), out.len()) })
}

/// A rewritten module.
#[derive(Clone, Debug, PartialEq, Eq)]
pub struct Rewritten {
    pub words: Vec<u32>,
    /// How many fresh symbols were taken: the module's S and on. The 40 of `words` holds S plus their number.
    pub fresh: u32,
}

/// Rewrites a module's words. Never refuses with [`Refusal::ShortOutput`].
pub fn rewritten(module: &[u32]) -> Result<Rewritten, Refusal> {
    let bytes = bytes_of(module);
    let mut out = vec![0; (3 * bytes.len()).min(OUT_MAX)];
    let answer = rewrite(&bytes, &mut out);
    match answer.refusal() {
        Some(refusal) => Err(refusal),
        None => Ok(Rewritten { words: words_of(&out[..4 * answer.written as usize]), fresh: answer.fresh }),
    }
}

/// The word of a kind, at most 63, and a payload, at most 67,108,863.
///
/// # Panics
///
/// If one of them is larger.
pub const fn word(kind: u32, payload: u32) -> u32 {
    assert!(kind < 1 << 6 && payload < 1 << 26, "a kind has 6 bits, a payload 26");
    kind << 26 | payload
}

/// The bytes of words, four to a word, lowest first.
pub fn bytes_of(words: &[u32]) -> Vec<u8> {
    words.iter().flat_map(|w| w.to_le_bytes()).collect()
}

/// The words of bytes; up to three bytes at the end that make no word are left out.
pub fn words_of(bytes: &[u8]) -> Vec<u32> {
    bytes.chunks_exact(4).map(|b| u32::from_le_bytes([b[0], b[1], b[2], b[3]])).collect()
}
