//! Weighs patterns as the crate `regex-syntax` reads them. Each line of standard input is the bytes of an anchored pattern in
//! hexadecimal; the answer is a line with how many items its program has where each is written as often as its counts repeat
//! it, or with `-` where the pattern is not read.

use regex_syntax::ParserBuilder;
use regex_syntax::hir::{Hir, HirKind, RepetitionKind, RepetitionRange};
use std::io::{self, BufRead, Write};

/// How often a repetition writes what it repeats.
fn repeats(kind: &RepetitionKind) -> u128 {
    match kind {
        RepetitionKind::ZeroOrOne | RepetitionKind::ZeroOrMore | RepetitionKind::OneOrMore => 1,
        RepetitionKind::Range(RepetitionRange::Exactly(n)) => u128::from(*n),
        RepetitionKind::Range(RepetitionRange::AtLeast(n)) => u128::from(*n) + 1,
        RepetitionKind::Range(RepetitionRange::Bounded(_, n)) => u128::from(*n),
    }
}

fn weight(hir: &Hir) -> u128 {
    match hir.kind() {
        HirKind::Empty => 0,
        HirKind::Literal(_) | HirKind::Class(_) | HirKind::Anchor(_) | HirKind::WordBoundary(_) => 1,
        HirKind::Repetition(of) => weight(&of.hir).saturating_mul(repeats(&of.kind)),
        HirKind::Group(of) => weight(&of.hir),
        HirKind::Concat(parts) | HirKind::Alternation(parts) => {
            parts.iter().map(weight).fold(0, u128::saturating_add)
        }
    }
}

fn bytes_of(hex: &str) -> Vec<u8> {
    let digits = |at: usize| u8::from_str_radix(&hex[at..at + 2], 16).expect("two digits");
    (0..hex.len()).step_by(2).map(digits).collect()
}

fn main() -> io::Result<()> {
    let mut out = io::BufWriter::new(io::stdout().lock());
    for line in io::stdin().lock().lines() {
        let pattern = String::from_utf8(bytes_of(&line?)).expect("UTF-8");
        match ParserBuilder::new().build().parse(&pattern) {
            Ok(hir) => writeln!(out, "{}", weight(&hir))?,
            Err(_) => writeln!(out, "-")?,
        }
    }
    out.flush()
}
