//! Document 01's example and refusals through the wrapper, and that no byte is touched that the answer does not own.
use gingerpost::{bytes_of, report, rewrite, rewritten, word, words_of, Answer, Refusal, MODULE_MAX, OUT_MAX, REPORT_MAX};

const CANARY: u8 = 0xc5;

fn module(text: &str) -> Vec<u32> {
    let read = |w: &str| {
        let (kind, payload) = w.split_once(':').expect("kind:payload");
        word(kind.parse().expect("a kind"), payload.parse().expect("a payload"))
    };
    text.split_ascii_whitespace().map(read).collect()
}

const EXAMPLE: &str = "1:1 40:3 4:0 26:1 28:1 9:0 27:2 29:1 30:4 28:1 9:1 34:5 36:0 39:0";
const ANSWER: &str = "1:3 40:4 5:2 20:0 26:1 28:0 27:3 29:1 30:4 28:0 34:5 36:0 39:0 2:0 22:4 16:1 9:1 24:0 9:2 10:5 13:0 2:0 18:2 22:2 16:1 9:0 9:2";

type Job = fn(&[u8], &mut [u8]) -> Answer;

/// The answer for bytes with `room` bytes of output, and the output, which is all canaries before.
fn call(job: Job, bytes: &[u8], room: usize) -> (Answer, Vec<u8>) {
    let mut out = vec![CANARY; room];
    let answer = job(bytes, &mut out);
    (answer, out)
}

fn refused(job: Job, bytes: &[u8], room: usize, refusal: Refusal) {
    let (answer, out) = call(job, bytes, room);
    assert_eq!(answer, Answer { code: refusal as u8, written: 0, fresh: 0 });
    assert_eq!(answer.refusal(), Some(refusal));
    assert!(out.iter().all(|b| *b == CANARY), "a refusal leaves the output as it was");
}

/// Refused by both calls.
fn both_refuse(bytes: &[u8], refusal: Refusal) {
    refused(rewrite, bytes, OUT_MAX, refusal);
    refused(report, bytes, REPORT_MAX, refusal);
}

#[test]
fn the_example() {
    let bytes = bytes_of(&module(EXAMPLE));
    for room in [108, 109, 110, 111, 112, 200, OUT_MAX, 2 * OUT_MAX] {
        let (answer, out) = call(rewrite, &bytes, room);
        assert_eq!(answer, Answer { code: 0, written: 27, fresh: 1 });
        assert_eq!(answer.refusal(), None);
        assert_eq!(words_of(&out[..108]), module(ANSWER));
        assert!(out[108..].iter().all(|b| *b == CANARY), "what is behind the answer is as it was");
    }
    let words = rewritten(&module(EXAMPLE)).expect("it is well formed");
    assert_eq!((words.words, words.fresh), (module(ANSWER), 1));
}

#[test]
fn its_report() {
    // the one fresh symbol, 3, is the class's inner one
    let bytes = bytes_of(&module(EXAMPLE));
    for room in [4, 5, 6, 7, 8, REPORT_MAX, OUT_MAX] {
        let (answer, out) = call(report, &bytes, room);
        assert_eq!(answer, Answer { code: 0, written: 1, fresh: 1 });
        assert_eq!(words_of(&out[..4]), module("3:3"));
        assert!(out[4..].iter().all(|b| *b == CANARY), "what is behind the answer is as it was");
    }
}

#[test]
fn an_output_that_is_too_short() {
    let bytes = bytes_of(&module(EXAMPLE));
    for room in 0..108 {
        refused(rewrite, &bytes, room, Refusal::ShortOutput);
    }
    for room in 0..4 {
        refused(report, &bytes, room, Refusal::ShortOutput);
    }
}

#[test]
fn lengths() {
    both_refuse(&[], Refusal::BadLength);
    let bytes = bytes_of(&module(EXAMPLE));
    for n in 1..bytes.len() {
        both_refuse(&bytes[..n], if n % 4 == 0 { Refusal::Malformed } else { Refusal::BadLength });
    }
    // an array of 4,092 nulls makes 4,096 words
    let array = |n: u32| [vec![word(1, 1), word(40, 0), word(2, 0), word(16, n)], vec![word(13, 0); n as usize]].concat();
    assert_eq!(rewritten(&array(4092)).expect("4,096 words pass").words, array(4092));
    assert_eq!(rewritten(&array(4093)), Err(Refusal::BadLength));
    both_refuse(&[0; MODULE_MAX + 1], Refusal::BadLength);
    both_refuse(&[0; MODULE_MAX + 4], Refusal::BadLength);
    both_refuse(&[0; 1 << 20], Refusal::BadLength);
}

#[test]
fn depth() {
    // the module is 1 deep, its statement 2, the arrays below that 3 and on
    let nested = |depth: usize| [module("1:1 40:0 2:0"), vec![word(16, 1); depth - 3], module("13:0")].concat();
    assert_eq!(rewritten(&nested(64)).expect("64 deep passes").words, nested(64));
    assert_eq!(rewritten(&nested(65)), Err(Refusal::TooDeep));
}

#[test]
fn every_other_refusal() {
    for (text, refusal) in [
        ("1:0 40:0 2:0", Refusal::Malformed),
        ("1:1 40:2 2:0 9:2", Refusal::UnknownSymbol),
        ("1:0 40:1000001", Refusal::TooManySymbols),
        ("1:1 40:1 2:0 20:0 26:0 28:0 29:1 30:2 28:1 9:0 34:5 36:0", Refusal::DecoratedConstructor),
        ("1:1 40:1 4:2 26:0 28:0 29:2 30:2 28:0 34:5 36:0 30:2 28:0 34:5 36:1 37:0 28:1 9:0", Refusal::LaterConstructor),
    ] {
        both_refuse(&bytes_of(&module(text)), refusal);
        assert_eq!(rewritten(&module(text)), Err(refusal));
        assert!(!refusal.to_string().is_empty());
    }
    assert_eq!(rewritten(&module("1:0 40:1000000")).expect("1,000,000 symbols pass").words, module("1:0 40:1000000"));
}
