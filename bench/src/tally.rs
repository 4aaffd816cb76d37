//! How often each answer of a codec was given.

use std::process::exit;

#[derive(Default)]
pub struct Tally([u64; 22]);

impl Tally {
    pub fn count(&mut self, answer: u32) {
        self.0[answer as usize] += 1;
    }

    /// Every one of these answers has to have occurred.
    pub fn print(&self, what: &str, answers: &[usize]) {
        println!("{} {what}, no differences; answer: cases", self.0.iter().sum::<u64>());
        for &answer in answers {
            println!("  {answer:2}: {}", self.0[answer]);
            if self.0[answer] == 0 {
                fail(&format!("answer {answer} did not occur"));
            }
        }
    }
}

pub fn fail(why: &str) -> ! {
    eprintln!("{why}");
    exit(1)
}
