//! Rules 10 to 15 on ALU clauses: both versions compared on damaged clauses, then timed on accepted ones.

use std::hint::black_box;
use std::process::exit;

use zlatomruk_bench::generate::clause::{Setting, clause};
use zlatomruk_bench::generate::damage;
use zlatomruk_bench::generate::random::Random;
use zlatomruk_bench::plain::Kind;
use zlatomruk_bench::{plain, proved, timing};

const DAMAGED: usize = 200_000;
const SLOTS: usize = 128;
/// Clauses of 2 KiB each that are judged in turn: more than a branch predictor learns by heart.
const CLAUSES: usize = 32;
const REPEATS: usize = 20;
const ROUNDS: usize = 300;

fn judge_plain(words: &[u32], start: usize, slots: usize, s: &Setting) -> (u32, usize) {
    plain::alu_clause(words, start, slots, s.push_before, s.kind, s.gprs, s.temps, s.consts, s.mode0, s.mode1)
}

fn judge_proved(words: &[u32], start: usize, slots: usize, s: &Setting) -> (u32, usize) {
    proved::alu_clause(words, start, slots, s.push_before, s.kind, s.gprs, s.temps, s.consts, s.mode0, s.mode1)
}

type Judge = fn(&[u32], usize, usize, &Setting) -> (u32, usize);

fn main() {
    compare();
    time();
}

/// Answers of both on damaged clauses at all places of a buffer; every rule has to occur.
fn compare() {
    let mut histogram = [0; 16];
    for seed in 0..DAMAGED as u64 {
        let random = &mut Random::new(seed);
        let setting = Setting::any(random);
        let most = if random.once_in(4) { 128 } else { 24 };
        let slots = random.between(1, most);
        let start = random.below(4);
        let mut words: Vec<u32> = (0..2 * start).map(|_| random.word()).collect();
        words.extend(clause(slots, &setting, random));
        words.extend((0..random.below(4)).map(|_| random.word()));
        for _ in 0..random.below(4) {
            damage::alu(&mut words[2 * start..2 * (start + slots)], random);
        }
        let tight = random.once_in(4);
        let setting = if tight { Setting::any(random) } else { setting };
        // Now and then a clause that lies outside.
        let slots = if random.once_in(500) { slots + random.below(4) } else { slots };
        let (ours, theirs) = (judge_plain(&words, start, slots, &setting), judge_proved(&words, start, slots, &setting));
        if ours != theirs {
            eprintln!("seed {seed}: plain {ours:?}, proved {theirs:?}, start {start}, slots {slots}, {setting:?}");
            eprintln!("{words:08X?}");
            exit(1);
        }
        histogram[ours.0 as usize] += 1;
    }
    println!("{DAMAGED} damaged clauses, answers alike; number: cases");
    for number in [0, 10, 11, 12, 13, 14, 15] {
        println!("  {number:2}: {}", histogram[number]);
        if histogram[number] == 0 {
            eprintln!("number {number} did not occur");
            exit(1);
        }
    }
}

fn time() {
    let random = &mut Random::new(2011);
    for push_before in [false, true] {
        let setting = Setting::generous(Kind::Pixel, push_before);
        let clauses: Vec<Vec<u32>> = (0..CLAUSES).map(|_| clause(SLOTS, &setting, random)).collect();
        for words in &clauses {
            assert_eq!(judge_plain(words, 0, SLOTS, &setting), (0, 0), "a clause made to be accepted");
        }
        let all = |judge: Judge| {
            for words in clauses.iter().cycle().take(CLAUSES * REPEATS) {
                black_box(judge(black_box(words), 0, SLOTS, black_box(&setting)));
            }
        };
        let judges: (Judge, Judge) = (judge_plain, judge_proved);
        let (plain, proved) = timing::race(ROUNDS, judges, all);
        let each = (CLAUSES * REPEATS) as f64;
        println!(
            "{SLOTS} slots, push_before {push_before}: plain {:.0} ns, proved {:.0} ns, proved / plain {:.2}",
            plain / each,
            proved / each,
            proved / plain
        );
    }
}
