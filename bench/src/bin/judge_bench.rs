//! Both judges, timed in one run on the packs of `generate::timed`, or on those that the arguments name: mixed, pairs, openers, rising, falling, same,
//! copy, or a file with a card and a pack, one behind the other.

use std::env;
use std::hint::black_box;

use zlatomruk_bench::generate::timed::{Input, NAMES, named_or_read};
use zlatomruk_bench::mixture::Mixture;
use zlatomruk_bench::plain::judge::Answer;
use zlatomruk_bench::{plain, proved, tally, timing};

const ROUNDS: usize = 400;

type Judge = fn(&[u8], &[u32]) -> Answer;

fn main() {
    let arguments: Vec<String> = env::args().skip(1).collect();
    let all = NAMES.map(String::from);
    for name in if arguments.is_empty() { all.as_slice() } else { &arguments } {
        let input = named_or_read(name).unwrap_or_else(|| tally::fail(&format!("no pack or readable file {name}")));
        match name.as_str() {
            "mixed" => {
                let number = Mixture::of(&input.1).instructions;
                both_states("mixed pack, 8,192 quadwords, 512 pairs", &input, number, "an ALU instruction");
            }
            "pairs" => pair_by_pair("512 mixed pairs, shortest clauses", &input),
            "rising" => pair_by_pair("512 openers, clauses in their order", &input),
            "falling" => pair_by_pair("512 openers, clauses the other way round", &input),
            "same" => pair_by_pair("512 openers of one fetch", &input),
            "openers" => over_and_over("511 openers of one 128-slot clause", &input, 4, None),
            "copy" => over_and_over("copy pack", &input, 2000, None),
            file => both_states(file, &input, Mixture::of(&input.1).instructions.max(1), "an ALU instruction"),
        }
    }
}

fn pair_by_pair(name: &str, input: &Input) {
    both_states(name, input, Mixture::of(&input.1).pairs, "a pair");
}

fn both_states(name: &str, input: &Input, number: usize, to: &str) {
    over_and_over(name, input, 4, Some((number, to)));
    once(name, input, number, to);
}

const JUDGES: (Judge, Judge) = (plain::judge, proved::judge);

/// The machine may learn every branch of the pack by heart.
fn over_and_over(name: &str, (card, words): &Input, repeats: usize, to: Option<(usize, &str)>) {
    assert_eq!(plain::judge(card, words), (0, 0, 0), "{name}: a pack made to be accepted");
    assert_eq!(proved::judge(card, words), (0, 0, 0), "{name}: a pack made to be accepted");
    let (plain, proved) = timing::race(ROUNDS, JUDGES, |judge: Judge| {
        for _ in 0..repeats {
            black_box(judge(black_box(card), black_box(words)));
        }
    });
    print(name, plain / repeats as f64, proved / repeats as f64, to);
}

/// As when the pack is judged once: branches are unlearned before each call, which is timed alone.
fn once(name: &str, (card, words): &Input, number: usize, to: &str) {
    let (plain, proved) = timing::race_unlearned(ROUNDS, JUDGES, |judge: Judge| {
        black_box(judge(black_box(card), black_box(words)));
    });
    print(&format!("{name}, branches not learned"), plain, proved, Some((number, to)));
}

fn print(name: &str, plain: f64, proved: f64, to: Option<(usize, &str)>) {
    let each = to.map_or(String::new(), |(number, to)| {
        format!(" ({:.1} and {:.1} ns to {to})", plain / number as f64, proved / number as f64)
    });
    println!("{name}: plain {plain:.0} ns, proved {proved:.0} ns{each}, proved / plain {:.2}", proved / plain);
}
