//! For bench/counts and bench/archives: one of the packs that judge_bench times, or a file's.
//!
//! judge_calls JUDGE PACK CALLS    calls plain or proved so often and prints nothing, for callgrind
//! judge_calls mixture PACK        prints pairs, clauses, groups and ALU instructions
//! judge_calls write PACK          writes card and pack, as judge_pack reads them

use std::env;
use std::hint::black_box;
use std::io::{self, Write};
use std::process::exit;

use zlatomruk_bench::generate::timed::{Input, named_or_read};
use zlatomruk_bench::mixture::Mixture;
use zlatomruk_bench::plain::judge::Answer;
use zlatomruk_bench::{plain, proved};

fn main() {
    let arguments: Vec<String> = env::args().skip(1).collect();
    match arguments.iter().map(String::as_str).collect::<Vec<_>>().as_slice() {
        ["plain", pack, calls] => call(plain::judge, pack, calls),
        ["proved", pack, calls] => call(proved::judge, pack, calls),
        ["mixture", pack] => mixture(&input(pack).1),
        ["write", pack] => write(input(pack)),
        _ => fail("usage: judge_calls plain|proved PACK CALLS, or judge_calls mixture|write PACK"),
    }
}

fn fail(why: &str) -> ! {
    eprintln!("judge_calls: {why}");
    exit(2)
}

fn input(pack: &str) -> Input {
    named_or_read(pack).unwrap_or_else(|| fail(&format!("no pack or readable file {pack}")))
}

fn call(judge: fn(&[u8], &[u32]) -> Answer, pack: &str, calls: &str) {
    let (card, words) = input(pack);
    let calls: usize = calls.parse().unwrap_or_else(|_| fail("CALLS is a number"));
    let judge = black_box(judge);
    for _ in 0..calls {
        if black_box(judge(black_box(&card), black_box(&words))) != (0, 0, 0) {
            fail("a pack that is not accepted");
        }
    }
}

fn mixture(words: &[u32]) {
    let mixture = Mixture::of(words);
    println!(
        "{} pairs, {} clauses, {} groups, {} ALU instructions",
        mixture.pairs,
        mixture.clauses(),
        mixture.groups(),
        mixture.instructions
    );
}

fn write((card, words): Input) {
    let bytes: Vec<u8> = card.into_iter().chain(words.iter().flat_map(|word| word.to_le_bytes())).collect();
    io::stdout().write_all(&bytes).unwrap_or_else(|_| fail("not written"));
}
