//! ALU clauses that are accepted under given grants, by construction.

use super::random::Random;
use crate::plain::Kind;

/// What a clause may use, and what it is opened with.
#[derive(Clone, Copy, Debug)]
pub struct Setting {
    pub kind: Kind,
    pub push_before: bool,
    pub gprs: u32,
    pub temps: u32,
    pub consts: u32,
    pub mode0: u32,
    pub mode1: u32,
}

impl Setting {
    /// Grants of every sort, none so tight that a clause of mixed operands could not be made.
    pub fn generous(kind: Kind, push_before: bool) -> Self {
        Setting { kind, push_before, gprs: 100, temps: 4, consts: 256, mode0: 2, mode1: 1 }
    }

    pub fn any(random: &mut Random) -> Self {
        let gprs = random.pick(&[1, 2, 7, 40, 100, 124]);
        Setting {
            kind: random.pick(&[Kind::Pixel, Kind::Pixel, Kind::Vertex, Kind::Geometry]),
            push_before: random.once_in(3),
            gprs,
            temps: random.below(5) as u32,
            consts: random.pick(&[0, 1, 100, 255, 256]),
            mode0: random.below(4) as u32,
            mode1: random.below(4) as u32,
        }
    }
}

/// All taken numbers, so that none is unheard of in what is compared and timed.
const ANY: &[u32] = &[
    0, 1, 2, 3, 4, 5, 6, 8, 9, 10, 11, 12, 13, 14, 15, 16, 17, 18, 19, 20, 25, 48, 49, 50, 51, 53, 54, 55, 56, 57, 58, 59, 60,
    61, 62, 63, 112, 113, 114,
];
const ANY_OP3: &[u32] = &[16, 17, 18, 19, 20, 21, 22, 23, 24, 25, 26];
const TRANS: &[u32] = &[97, 98, 99, 100, 101, 102, 103, 104, 105, 106, 107, 108, 109, 110, 111, 115, 116, 117, 118, 119, 120];
const TRANS_OP3: &[u32] = &[12, 13, 14, 15];
const ADD_INT: u32 = 52;
const MOVAS: &[u32] = &[21, 22, 24];
const REDUCTIONS: &[u32] = &[80, 81, 82, 83];
const SETTERS: &[u32] = &[32, 33, 34, 35, 36, 37, 38, 39, 40, 41, 42, 43, 66, 67, 68, 69, 70, 71, 74, 75, 76, 77, 78, 79];
const KILLS: &[u32] = &[44, 45, 46, 47];

/// One instruction before its words are made.
struct Plan {
    op3: bool,
    number: u32,
    channel: u32,
    unit: Unit,
}

/// Where an instruction goes.
#[derive(Clone, Copy, PartialEq, Eq)]
enum Unit {
    /// Its channel's.
    Vector,
    /// Trans, since its channel is taken.
    Moved,
    /// Trans, by its number.
    Trans,
}

impl Plan {
    /// An OP2 number in place of the one planned.
    fn becomes(&mut self, number: u32) {
        (self.op3, self.number) = (false, number);
    }

    fn words(&self, sources: [u32; 3], shared: u32, relative: bool, setting: &Setting, random: &mut Random) -> [u32; 2] {
        let swizzle = random.below(if self.unit == Unit::Vector { 6 } else { 4 }) as u32;
        let pred_sel = random.pick(&[0, 0, 2, 3]);
        let low = sources[0] | sources[1] << 13 | (random.below(5) as u32) << 26 | pred_sel << 29;
        let target = register(setting, random);
        let mut high = swizzle << 18 | target << 21 | self.channel << 29;
        if relative && random.once_in(8) {
            high |= 1 << 28 | 127 << 21; // out of every grant, and free by its relative bit
        }
        if self.op3 {
            high |= sources[2] | self.number << 13 | shared & 1 << 31;
        } else {
            high |= random.word() & 0x1F | self.number << 7 | shared;
        }
        [low, high]
    }
}

/// A register that is granted.
fn register(setting: &Setting, random: &mut Random) -> u32 {
    let number = random.below((setting.gprs + setting.temps) as usize) as u32;
    if number < setting.gprs { number } else { 128 - setting.temps + (number - setting.gprs) }
}

/// A source's 13 bits: granted, no literal, and with a relative bit only where the group allows one.
fn source(setting: &Setting, relative: bool, random: &mut Random) -> u32 {
    let locked = |mode: u32| [0, 16, 32, 32][mode as usize];
    let select = loop {
        match random.below(8) {
            0..=3 => break register(setting, random),
            4 if setting.mode0 > 0 => break 128 + random.below(locked(setting.mode0)) as u32,
            5 if setting.mode1 > 0 => break 160 + random.below(locked(setting.mode1)) as u32,
            6 if setting.consts > 0 => break 256 + random.below(setting.consts as usize) as u32,
            7 => break random.pick(&[248, 249, 250, 251, 252, 254, 255]),
            _ => {}
        }
    };
    let relative = relative && !(192..256).contains(&select) && random.once_in(6);
    select | u32::from(relative) << 9 | (random.word() & 7) << 10
}

/// The instructions of a group: channels of the vector units rising, then Trans.
fn plans(count: usize, special: Special, random: &mut Random) -> Vec<Plan> {
    let with_trans = match special {
        Special::Reduction => count == 5,
        _ => count == 5 || (count > 1 && random.once_in(3)) || random.once_in(8),
    };
    let vectors = count - usize::from(with_trans);
    let mut plans = Vec::with_capacity(count);
    for channel in 0..4 {
        if random.below(4 - channel) < vectors - plans.len() {
            let op3 = random.once_in(3);
            let number = random.pick(if op3 { ANY_OP3 } else { ANY });
            plans.push(Plan { op3, number, channel: channel as u32, unit: Unit::Vector });
        }
    }
    if special == Special::Reduction {
        let number = random.pick(REDUCTIONS);
        plans.iter_mut().for_each(|plan| plan.becomes(number));
    } else if vectors > 0 && random.once_in(6) {
        plans[random.below(vectors)].becomes(ADD_INT); // vector only
    }
    if with_trans {
        // An any-unit number goes to Trans where its own channel is taken before it.
        let taken = (!plans.is_empty() && random.once_in(2)).then(|| plans[random.below(plans.len())].channel);
        let op3 = random.once_in(3);
        let number = random.pick(match (taken.is_some(), op3) {
            (true, false) => ANY,
            (true, true) => ANY_OP3,
            (false, false) => TRANS,
            (false, true) => TRANS_OP3,
        });
        let unit = if taken.is_some() { Unit::Moved } else { Unit::Trans };
        plans.push(Plan { op3, number, channel: taken.unwrap_or(random.word() & 3), unit });
    }
    plans
}

#[derive(Clone, Copy, PartialEq, Eq)]
enum Special {
    None,
    Reduction,
    Mova,
    Setter,
    Kill,
}

/// A clause of exactly `slots` slots, accepted under `setting`.
pub fn clause(slots: usize, setting: &Setting, random: &mut Random) -> Vec<u32> {
    let mut words = Vec::with_capacity(2 * slots);
    let mut setters = 0;
    // PUSH_BEFORE needs exactly one setter: at the latest the last group has it.
    let one_at_least = setting.push_before || random.once_in(2);
    let setter_from = random.below(slots);
    while words.len() < 2 * slots {
        let first = words.len() / 2;
        let left = slots - first;
        let count = random.between(1, left.min(5));
        let literals = random.pick(&[0, 0, 0, 1, 2]).min(left - count);
        let ends = count + literals == left;
        let due = one_at_least && setters == 0 && (ends || first >= setter_from);
        let wants_setter = due || (!setting.push_before && random.once_in(12));
        let special = if wants_setter {
            Special::Setter
        } else if ends {
            // Nowhere else may a kill stand.
            if setting.kind == Kind::Pixel && !random.once_in(4) { Special::Kill } else { Special::None }
        } else if count >= 4 && random.once_in(4) {
            Special::Reduction
        } else if random.once_in(10) {
            Special::Mova
        } else {
            Special::None
        };
        setters += usize::from(special == Special::Setter);
        group(count, literals, special, setting, random, &mut words);
    }
    words
}

fn group(count: usize, literals: usize, special: Special, setting: &Setting, random: &mut Random, words: &mut Vec<u32>) {
    let mut plans = plans(count, special, random);
    // Setters and kills go to any unit: they may replace an any-unit number, also one that is moved to Trans, and what is alone in its group.
    // A MOVA has to stand in a vector unit.
    let vectors = plans.iter().filter(|plan| plan.unit == Unit::Vector).count();
    let any_unit = plans.iter().filter(|plan| plan.unit != Unit::Trans).count().max(1);
    match special {
        Special::Setter | Special::Kill => {
            let plan = &mut plans[random.below(any_unit)];
            plan.becomes(random.pick(if special == Special::Setter { SETTERS } else { KILLS }));
            if plan.unit == Unit::Trans {
                plan.unit = Unit::Vector;
            }
        }
        Special::Mova if vectors > 0 => plans[random.below(vectors)].becomes(random.pick(MOVAS)),
        _ => {}
    }
    let relative = special != Special::Mova;
    let shared = if special == Special::Reduction || random.once_in(3) { random.word() & 0x8000_0060 } else { 0 };
    let holder = random.below(count);
    for (index, plan) in plans.iter().enumerate() {
        let mut sources = [0; 3].map(|_| source(setting, relative, random));
        if literals > 0 && (index == holder || random.once_in(4)) {
            // The holder makes sure that the group has exactly the literals planned.
            let channel =
                if index == holder { 2 * literals as u32 - 2 + (random.word() & 1) } else { random.below(2 * literals) as u32 };
            let at = random.below(if plan.op3 { 3 } else { 2 });
            sources[at] = 253 | channel << 10;
        }
        let [mut low, high] = plan.words(sources, shared, relative, setting, random);
        if index + 1 == count {
            low |= 1 << 31;
        }
        words.extend([low, high]);
    }
    words.extend((0..2 * literals).map(|_| random.word()));
}

/// A clause that is accepted both as ALU slots, by whatever opener, and as so many fetches. Each fetch is a group of one instruction and a literal
/// quadword: what one reads as a relative bit or a number is an odd number, a channel or a source to the other.
pub fn both_ways(fetches: usize, texture: bool, setting: &Setting, random: &mut Random) -> Vec<u32> {
    let odd = |numbers: &[u32]| -> Vec<u32> { numbers.iter().copied().filter(|number| number % 2 == 1).collect() };
    let (any, setters) = (odd(ANY), odd(SETTERS));
    // Exactly one, as PUSH_BEFORE needs it.
    let setter_at = random.below(fetches);
    let mut words = Vec::with_capacity(4 * fetches);
    for index in 0..fetches {
        // Bit 7 of the high word, a fetch's relative bit of the destination, is the lowest of an OP2 number.
        let number = random.pick(if index == setter_at { &setters } else { &any });
        let plan = Plan { op3: false, number, channel: random.word() & 3, unit: Unit::Vector };
        let [low, high] = plan.words(fetch_sources(texture, setting, random), 0, false, setting, random);
        words.extend([low | 1 << 31, high, random.word(), 0]);
    }
    words
}

/// Sources of such an instruction, the third unread, one of them a literal X or Y. The lowest bits of the first are the fetch's number; the second's
/// channel is Y or W, which is the relative bit of the fetch's source.
fn fetch_sources(texture: bool, setting: &Setting, random: &mut Random) -> [u32; 3] {
    let (first, second) = if texture {
        (253 | (random.word() & 1) << 10, source(setting, false, random)) // 253 ends in 29, a texture fetch
    } else {
        (random.below(setting.gprs.min(2) as usize) as u32, 253)
    };
    [first, second | 1 << 10, 0]
}
