//! Judges the test vectors of a folder (N.in: card and pack, N.out: report) with the plain judge.

use std::path::Path;
use std::process::exit;
use std::{env, fs};

use zlatomruk_bench::plain::{card, judge};

fn main() {
    let Some(folder) = env::args().nth(1) else {
        eprintln!("usage: plain_vectors FOLDER");
        exit(2);
    };
    let mut histogram = [0; 23];
    let mut wrong = 0;
    let mut paths: Vec<_> = fs::read_dir(&folder).expect("the folder").map(|entry| entry.expect("an entry").path()).collect();
    paths.sort();
    for path in paths.iter().filter(|path| path.extension().is_some_and(|extension| extension == "in")) {
        let input = fs::read(path).expect("the input");
        let expected = fs::read_to_string(path.with_extension("out")).expect("the report");
        let (report, number) = report(&input);
        histogram[number as usize] += 1;
        if report != expected {
            wrong += 1;
            println!("{}: expected\n{expected}plain judge says\n{report}", Path::new(path).display());
        }
    }
    println!("{} vectors, {wrong} differ; by number: {histogram:?}", histogram.iter().sum::<u32>());
    exit(i32::from(wrong > 0));
}

/// What the program would print for this standard input, and its verdict.
fn report(input: &[u8]) -> (String, u32) {
    let behind_card = input.iter().enumerate().filter(|(_, byte)| **byte == b'\n').nth(6).map_or(input.len(), |(at, _)| at + 1);
    let (head, pack) = input.split_at(behind_card);
    let (quads, rest) = pack.as_chunks::<4>();
    let mut words: Vec<u32> = quads.iter().map(|bytes| u32::from_le_bytes(*bytes)).collect();
    if !rest.is_empty() {
        // The judge counts words: bytes left over make the number odd, which no card asks for.
        words.resize(words.len() / 2 * 2 + 1, 0);
    }
    let (number, place, slot) = judge(head, &words);
    let build = match card::parse(head) {
        Ok(card) if card.production => "production",
        Ok(_) => "debug",
        Err(_) => "unknown",
    };
    let release = if number == 0 && build == "production" { "yes" } else { "no" };
    (format!("build={build}\nverdict={number}\nplace={place}\nslot={slot}\nrelease={release}\n"), number)
}
