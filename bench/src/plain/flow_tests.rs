//! Rules 16 to 19 once more, with whole stacks of frames, against the short form that `flow` keeps.

use crate::generate;
use crate::plain::card;
use crate::plain::judge;

#[derive(Clone, Copy, PartialEq, Eq, Debug)]
enum Frame {
    Mask,
    Loop(usize),
}

type Frames = Vec<Frame>;

fn number(high: u32) -> u32 {
    if high >> 29 & 1 != 0 { 100 + (high >> 26 & 15) } else { high >> 23 & 127 }
}

fn popped(stack: &Frames, count: usize) -> Option<Frames> {
    let rest = stack.len().checked_sub(count)?;
    stack[rest..].iter().all(|frame| *frame == Frame::Mask).then(|| stack[..rest].to_vec())
}

/// The stack on "no".
fn on_no(stack: &Frames, position: usize, high: u32, limit: usize) -> Option<Frames> {
    let count = (high & 7) as usize;
    let pushed = |frame| (stack.len() < limit).then(|| [stack.as_slice(), &[frame]].concat());
    match number(high) {
        109 => pushed(Frame::Mask),
        110 => popped(stack, 1),
        111 => popped(stack, 2),
        8..=10 => popped(stack, count).map(|_| stack.clone()),
        13 => popped(stack, 1).and_then(|_| popped(stack, count)).map(|_| stack.clone()),
        14 => popped(stack, count),
        6 => pushed(Frame::Loop(position)),
        5 => match stack.last() {
            Some(Frame::Loop(_)) => Some(stack[..stack.len() - 1].to_vec()),
            _ => None,
        },
        _ => Some(stack.clone()),
    }
}

/// Number and place by rules 16 to 19 alone.
fn flow(words: &[u32], limit: usize) -> (u32, usize) {
    let pairs = words.as_chunks::<2>().0;
    let end = pairs.iter().position(|[_, high]| high >> 29 & 1 == 0 && high >> 21 & 1 != 0).expect("an end");
    let mut before = vec![Frames::new()];
    for (position, &[_, high]) in pairs[..=end].iter().enumerate() {
        match on_no(&before[position], position, high, limit) {
            Some(stack) => before.push(stack),
            None => return (16, position),
        }
    }
    if !before[end + 1].is_empty() {
        return (17, end);
    }
    let is_loop_end = |at: usize| number(pairs[at][1]) == 5;
    for (position, &[low, high]) in pairs[..=end].iter().enumerate() {
        let (target, stack) = (low as usize, &before[position]);
        let op = number(high);
        if !matches!(op, 5 | 6 | 8..=10 | 13 | 14) {
            continue;
        }
        let side = if op == 5 { target <= position } else { target > position };
        if target > end || !side || (matches!(op, 8 | 9) && !is_loop_end(target)) {
            return (18, position);
        }
        let carried = if matches!(op, 5 | 6) { Some(stack.clone()) } else { popped(stack, (high & 7) as usize) };
        let own_end = |at: usize| is_loop_end(at) && before[at].last() == Some(&Frame::Loop(position));
        let paired = match op {
            5 => target > 0 && stack.last() == Some(&Frame::Loop(target - 1)),
            6 => (0..=end).find(|at| own_end(*at)) == Some(target - 1),
            _ => true,
        };
        if carried.as_ref() != Some(&before[target]) || !paired {
            return (19, position);
        }
    }
    (0, 0)
}

#[test]
fn the_short_form_is_the_stack() {
    let mut seen = [0; 20];
    for seed in 0..60_000 {
        let case = generate::case(seed);
        let answer = judge(&case.card, &case.words);
        // Another number may stand before any fault of the flow.
        if matches!(answer.0, 0 | 16..=19) {
            let limit = card::parse(&case.card).expect("a good card").stack as usize;
            assert_eq!((answer.0, answer.1), flow(&case.words, limit), "seed {seed}");
            seen[answer.0 as usize] += 1;
        }
    }
    assert!([0, 16, 17, 18, 19].iter().all(|number| seen[*number] > 100), "{seen:?}");
}
