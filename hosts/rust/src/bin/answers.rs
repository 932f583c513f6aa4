//! Prints what the entry answers for each module that standard input lists: the three numbers, then the words written, on one line. Its argument is
//! the job, rewrite or report. A module is a line of words as kind:payload.
use gingerpost::{bytes_of, report, rewrite, word, words_of, Answer, OUT_MAX};
use std::fmt::Write as _;
use std::io::{self, BufRead, Write as _};

fn read(line: &str) -> Option<Vec<u32>> {
    line.split_ascii_whitespace()
        .map(|w| {
            let (kind, payload) = w.split_once(':')?;
            let (kind, payload) = (kind.parse().ok()?, payload.parse().ok()?);
            (kind < 1 << 6 && payload < 1 << 26).then(|| word(kind, payload))
        })
        .collect()
}

fn main() -> Result<(), Box<dyn std::error::Error>> {
    let job: fn(&[u8], &mut [u8]) -> Answer = match std::env::args().nth(1).as_deref() {
        Some("rewrite") => rewrite,
        Some("report") => report,
        _ => return Err("usage: answers rewrite|report < MODULES".into()),
    };
    let mut out = vec![0; OUT_MAX];
    let mut print = io::BufWriter::new(io::stdout().lock());
    for line in io::stdin().lock().lines() {
        let line = line?;
        let module = read(&line).ok_or_else(|| format!("no module: {line:.60}"))?;
        let answer = job(&bytes_of(&module), &mut out);
        let mut text = format!("{} {} {}", answer.code, answer.written, answer.fresh);
        for w in words_of(&out[..4 * answer.written as usize]) {
            write!(text, " {}:{}", w >> 26, w & 0x3ff_ffff)?;
        }
        writeln!(print, "{text}")?;
    }
    Ok(())
}
