//! The codec of fetches: both versions compared over fetches and rows of values, every lent element included, then timed.

use std::hint::black_box;

use zlatomruk_bench::from_c::{Decode, Encode};
use zlatomruk_bench::generate::codec::start;
use zlatomruk_bench::generate::fetch_codec::{KINDS, NUMBERS, numbered, row, taken, wild};
use zlatomruk_bench::generate::random::Random;
use zlatomruk_bench::plain::codec::VALUES;
use zlatomruk_bench::plain::fetch_codec::{TEX, VTX};
use zlatomruk_bench::tally::{Tally, fail};
use zlatomruk_bench::{from_c, plain, proved, timing};

/// Fetches of each kind, of each sort: wild ones, taken ones, every number in turn.
const FETCHES: usize = 500_000;
const ROWS: usize = 2_000_000;
/// Fetches that are timed in turn: more than a branch predictor learns by heart. Of 4,096 some learn a part, more of it or less by where the code
/// comes to lie.
const TIMED: usize = 32_768;
const ROUNDS: usize = 200;
/// Fetches of all kinds, mixed: once through them is more than caches hold.
const MIXED: usize = 1_000_000;
const MIXED_ROUNDS: usize = 20;

fn main() {
    let random = &mut Random::new(2011);
    let mut decoded = Tally::default();
    for kind in KINDS {
        for case in 0..FETCHES {
            for fetch in [wild(kind, random), taken(kind, random), numbered(case as u32 % NUMBERS, random)] {
                decoded.count(compare_decode(fetch, kind, random));
            }
        }
    }
    decoded.print("fetches decoded", &[0, 2, 8, 20, 21]);
    let mut encoded = Tally::default();
    for _ in 0..ROWS {
        encoded.count(compare_encode(&row(random), random));
    }
    encoded.print("rows encoded", &[0, 20, 21]);
    time("TEX", &[TEX], TIMED, ROUNDS, random);
    time("VTX", &[VTX], TIMED, ROUNDS, random);
    time("a million of all kinds", &KINDS, MIXED, MIXED_ROUNDS, random);
}

/// Both decoders on a fetch among random words; what was decoded is encoded again.
fn compare_decode(fetch: [u32; 4], kind: u32, random: &mut Random) -> u32 {
    let before = random.below(4);
    let mut words = random.words(before);
    words.extend(fetch);
    let behind = random.below(3);
    words.extend(random.words(behind));
    let start = start(before, words.len(), random);
    // Now and then a kind that there is none of.
    let none = [0, 4, random.word().max(4), u32::MAX];
    let kind = if random.once_in(24) { random.pick(&none) } else { kind };
    let room = if random.once_in(30) { random.below(VALUES) } else { VALUES + random.below(3) };
    let mut ours = random.words(room);
    let mut theirs = ours.clone();
    let answer = plain::fetch_codec::decode(&words, start, kind, &mut ours);
    if answer != proved::decode_fetch(&words, start, kind, &mut theirs) || ours != theirs {
        fail(&format!("decode differs: words {words:08X?}, start {start}, kind {kind}, room {room}"));
    }
    if answer == 0 {
        let mut back = words.clone();
        back[start..start + 4].fill(u32::MAX);
        if proved::encode_fetch(&theirs, &mut back, start) != 0 || back != words {
            fail(&format!("not encoded again: words {words:08X?}, start {start}, kind {kind}"));
        }
    }
    answer
}

/// Both encoders on a row of values, into random words.
fn compare_encode(values: &[u32], random: &mut Random) -> u32 {
    let length = random.below(10);
    let start = start(random.below(length.max(4) - 3), length, random);
    let mut ours = random.words(length);
    let mut theirs = ours.clone();
    let answer = plain::fetch_codec::encode(values, &mut ours, start);
    if answer != proved::encode_fetch(values, &mut theirs, start) || ours != theirs {
        fail(&format!("encode differs: values {values:X?}, {length} words, start {start}"));
    }
    answer
}

fn time(name: &str, of: &[u32], count: usize, rounds: usize, random: &mut Random) {
    let kinds: Vec<u32> = (0..count).map(|_| random.pick(of)).collect();
    let words: Vec<u32> = kinds.iter().flat_map(|&kind| taken(kind, random)).collect();
    let mut rows = vec![[0; VALUES]; count];
    for (index, (&kind, values)) in kinds.iter().zip(&mut rows).enumerate() {
        assert_eq!(plain::fetch_codec::decode(&words, 4 * index, kind, values), 0, "a fetch made to be taken");
    }
    let decode_all = |decode: Decode| {
        let mut values = [0; VALUES];
        for (index, &kind) in kinds.iter().enumerate() {
            let words = black_box(&words);
            let room = values.len();
            // `words` and `values` are slices that do not overlap, as they are below.
            black_box(unsafe { decode(words.as_ptr(), words.len(), 4 * index, kind, values.as_mut_ptr(), room) });
            black_box(&values);
        }
    };
    let encode_all = |encode: Encode| {
        let mut out = [0; 4];
        for values in &rows {
            let values = black_box(values);
            let length = out.len();
            black_box(unsafe { encode(values.as_ptr(), values.len(), out.as_mut_ptr(), length, 0) });
            black_box(&out);
        }
    };
    let each = |(plain, proved): (f64, f64)| (plain / count as f64, proved / count as f64);
    let decoders: (Decode, Decode) = (from_c::decode_fetch, proved::zlatomruk_decode_fetch);
    let encoders: (Encode, Encode) = (from_c::encode_fetch, proved::zlatomruk_encode_fetch);
    report("decode", name, each(timing::race(rounds, decoders, decode_all)));
    report("encode", name, each(timing::race(rounds, encoders, encode_all)));
}

fn report(what: &str, name: &str, (plain, proved): (f64, f64)) {
    println!("{what}, {name}: plain {plain:.1} ns, proved {proved:.1} ns, proved / plain {:.2}", proved / plain);
}
