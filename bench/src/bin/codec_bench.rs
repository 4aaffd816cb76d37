//! The codec: both versions compared over pairs of words and rows of values, every lent element included, then timed.

use std::hint::black_box;

use zlatomruk_bench::from_c::{Decode, Encode};
use zlatomruk_bench::generate::codec::{STREAMS, numbered, numbers, row, start, taken};
use zlatomruk_bench::generate::random::Random;
use zlatomruk_bench::plain::codec::VALUES;
use zlatomruk_bench::tally::{Tally, fail};
use zlatomruk_bench::{from_c, plain, proved, timing};

/// Pairs of each stream, of each kind: random words, taken numbers, every number in turn.
const PAIRS: usize = 500_000;
const ROWS: usize = 2_000_000;
/// Pairs that are timed in turn: more than a branch predictor learns by heart.
const TIMED: usize = 4096;
const ROUNDS: usize = 1000;

fn main() {
    let random = &mut Random::new(2011);
    let mut decoded = Tally::default();
    for stream in STREAMS {
        for case in 0..PAIRS {
            let number = case as u32 % numbers(stream);
            for pair in [[random.word(), random.word()], taken(stream, random), numbered(stream, number, random)] {
                decoded.count(compare_decode(pair, stream, random));
            }
        }
    }
    decoded.print("pairs decoded", &[0, 2, 4, 11, 20, 21]);
    let mut encoded = Tally::default();
    for _ in 0..ROWS {
        encoded.count(compare_encode(&row(random), random));
    }
    encoded.print("rows encoded", &[0, 20, 21]);
    for stream in STREAMS {
        time(stream, random);
    }
}

/// Both decoders on a pair among random words; what was decoded is encoded again.
fn compare_decode(pair: [u32; 2], stream: u32, random: &mut Random) -> u32 {
    let before = random.below(4);
    let mut words = random.words(before);
    words.extend(pair);
    let behind = random.below(3);
    words.extend(random.words(behind));
    let start = start(before, words.len(), random);
    // Now and then a stream that there is none of.
    let stream = if stream == 1 && random.once_in(8) { random.word().max(2) } else { stream };
    let room = if random.once_in(30) { random.below(VALUES) } else { VALUES + random.below(3) };
    let mut ours = random.words(room);
    let mut theirs = ours.clone();
    let answer = plain::codec::decode(&words, start, stream, &mut ours);
    if answer != proved::decode(&words, start, stream, &mut theirs) || ours != theirs {
        fail(&format!("decode differs: words {words:08X?}, start {start}, stream {stream}, room {room}"));
    }
    if answer == 0 {
        let mut back = words.clone();
        back[start..start + 2].fill(0);
        if proved::encode(&theirs, &mut back, start) != 0 || back != words {
            fail(&format!("not encoded again: words {words:08X?}, start {start}, stream {stream}"));
        }
    }
    answer
}

/// Both encoders on a row of values, into random words.
fn compare_encode(values: &[u32], random: &mut Random) -> u32 {
    let length = random.below(8);
    let start = start(random.below(length.max(2) - 1), length, random);
    let mut ours = random.words(length);
    let mut theirs = ours.clone();
    let answer = plain::codec::encode(values, &mut ours, start);
    if answer != proved::encode(values, &mut theirs, start) || ours != theirs {
        fail(&format!("encode differs: values {values:X?}, {length} words, start {start}"));
    }
    answer
}

fn time(stream: u32, random: &mut Random) {
    let words: Vec<u32> = (0..TIMED).flat_map(|_| taken(stream, random)).collect();
    let mut rows = vec![[0; VALUES]; TIMED];
    for (pair, values) in rows.iter_mut().enumerate() {
        assert_eq!(plain::codec::decode(&words, 2 * pair, stream, values), 0, "a pair made to be taken");
    }
    let decode_all = |decode: Decode| {
        let mut values = [0; VALUES];
        for pair in 0..TIMED {
            let words = black_box(&words);
            let room = values.len();
            // `words` and `values` are slices that do not overlap, as they are below.
            black_box(unsafe { decode(words.as_ptr(), words.len(), 2 * pair, stream, values.as_mut_ptr(), room) });
            black_box(&values);
        }
    };
    let encode_all = |encode: Encode| {
        let mut out = [0; 2];
        for values in &rows {
            let values = black_box(values);
            let length = out.len();
            black_box(unsafe { encode(values.as_ptr(), values.len(), out.as_mut_ptr(), length, 0) });
            black_box(&out);
        }
    };
    let name = if stream == 0 { "control flow" } else { "ALU" };
    let decoders: (Decode, Decode) = (from_c::decode, proved::zlatomruk_decode);
    let encoders: (Encode, Encode) = (from_c::encode, proved::zlatomruk_encode);
    report("decode", name, timing::race(ROUNDS, decoders, decode_all));
    report("encode", name, timing::race(ROUNDS, encoders, encode_all));
}

fn report(what: &str, name: &str, (plain, proved): (f64, f64)) {
    let each = TIMED as f64;
    println!(
        "{what}, {name}: plain {:.1} ns, proved {:.1} ns, proved / plain {:.2}",
        plain / each,
        proved / each,
        proved / plain
    );
}
