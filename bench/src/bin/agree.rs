//! Both judges over many generated cases: number, place and slot have to be alike, and every number has to occur.
//! Arguments: how many cases (a million unless given) and the first seed (0).

use std::env;
use std::process::exit;

use zlatomruk_bench::{generate, plain, proved};

const SHOWN: usize = 5;
/// The numbers that a judge gives; those between are the encoder's.
const NUMBERS: [usize; 21] = [0, 1, 2, 3, 4, 5, 6, 7, 8, 9, 10, 11, 12, 13, 14, 15, 16, 17, 18, 19, 22];

fn main() {
    let mut arguments = env::args().skip(1).map(|text| text.parse::<u64>().expect("a number"));
    let cases = arguments.next().unwrap_or(1_000_000);
    let first = arguments.next().unwrap_or(0);
    let mut histogram = [0u64; 23];
    let mut differences = 0;
    for seed in first..first + cases {
        let case = generate::case(seed);
        let ours = plain::judge(&case.card, &case.words);
        let theirs = proved::judge(&case.card, &case.words);
        let accepted_or_damaged = !case.sound || ours == (0, 0, 0);
        if ours != theirs || !accepted_or_damaged {
            differences += 1;
            if differences <= SHOWN {
                let made = if case.sound { "to be accepted" } else { "with damage" };
                println!("seed {seed}, made {made}: plain {ours:?}, proved {theirs:?}");
                println!("  card {}", hexadecimal(&case.card, 2));
                println!("  words {}", hexadecimal(&case.words, 8));
            }
        }
        histogram[ours.0 as usize] += 1;
    }
    println!("{cases} cases, {differences} differences; number: cases");
    for number in NUMBERS {
        println!("  {number:2}: {}", histogram[number]);
    }
    let missing = NUMBERS.iter().any(|&number| histogram[number] == 0);
    if missing {
        println!("not every number occurred");
    }
    exit(i32::from(differences > 0 || missing));
}

fn hexadecimal<T: std::fmt::UpperHex>(values: &[T], width: usize) -> String {
    values.iter().map(|value| format!("{value:0width$X}")).collect::<Vec<_>>().join(" ")
}
