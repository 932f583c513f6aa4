//! Compares the proved library with the independent implementation: the number returned, every word written and every byte not written, for
//! the rewriting and the symbol report, with outputs of many lengths. Prints what was tried; at the first difference prints the module, shrunk
//! too, and ends with 1.

use independent::comparison::{Comparison, Counts, Entries};
use independent::generator::{self, Origin, Random};
use std::process::ExitCode;
use std::time::Instant;

#[path = "../proved.rs"]
mod proved;

const USAGE: &str = "compare [--modules N] [--seed K] [--long] [--index I] [--help]
  --modules N  random modules (default 200000)
  --seed K     what they are made from (default 1)
  --long       longer lists in the exhaustive part
  --index I    only the random module I of this seed";

struct Options {
    modules: u64,
    seed: u64,
    long: bool,
    index: Option<u64>,
}

fn options() -> Option<Options> {
    let mut o = Options { modules: 200_000, seed: 1, long: false, index: None };
    let mut args = std::env::args().skip(1);
    while let Some(a) = args.next() {
        match a.as_str() {
            "--modules" => o.modules = args.next()?.parse().ok()?,
            "--seed" => o.seed = args.next()?.parse().ok()?,
            "--long" => o.long = true,
            "--index" => o.index = Some(args.next()?.parse().ok()?),
            _ => return None,
        }
    }
    Some(o)
}

fn main() -> ExitCode {
    let Some(o) = options() else {
        eprintln!("{USAGE}");
        return ExitCode::from(2);
    };
    match run(&o) {
        Ok(counts) => {
            print!("{}", counts.text());
            ExitCode::SUCCESS
        }
        Err(text) => {
            println!("{text}");
            ExitCode::FAILURE
        }
    }
}

fn run(o: &Options) -> Result<Counts, String> {
    let mut c = Comparison::new(Entries { rewrite: proved::rewrite, report: proved::report });
    if let Some(index) = o.index {
        let (origin, m) = generator::case(o.seed, index);
        c.case(&m, origin, &mut lengths(o.seed, index)).map_err(|d| c.explained(&m, &d, &format!("seed {}, index {index}", o.seed)))?;
        return Ok(c.counts);
    }
    let begin = Instant::now();
    for a in generator::alphabets() {
        let longest = if o.long { a.long } else { a.short };
        let before = c.counts.modules;
        let mut r = lengths(o.seed, 0);
        let mut difference = None;
        generator::each_short(&a.words, longest, &mut |m| {
            difference = c.case(m, Origin::Exhaustive, &mut r).err().map(|d| c.explained(m, &d, a.title));
            difference.is_none()
        });
        if let Some(text) = difference {
            return Err(text);
        }
        println!("every list of at most {longest} words, {}: {}", a.title, c.counts.modules - before);
    }
    println!("exhaustive part: {} modules in {:.1} s", c.counts.modules, begin.elapsed().as_secs_f64());
    let begin = Instant::now();
    for index in 0..o.modules {
        let (origin, m) = generator::case(o.seed, index);
        c.case(&m, origin, &mut lengths(o.seed, index)).map_err(|d| c.explained(&m, &d, &format!("seed {}, index {index}", o.seed)))?;
    }
    println!("random part: {} modules from seed {} in {:.1} s", o.modules, o.seed, begin.elapsed().as_secs_f64());
    Ok(c.counts)
}

/// What the lengths lent with a module are drawn from, other numbers than the module's own.
fn lengths(seed: u64, index: u64) -> Random {
    Random::new(!seed, index)
}
