// The same flows and packets as in lookup.sh, in maps of Rust's own: one map for each mask, from the values to a priority and the
// number of the flow. Words: which hash, which packets, and how many look-ups.
use std::collections::HashMap;
use std::hash::{BuildHasher, BuildHasherDefault, Hasher, RandomState};

const FLOWS: u64 = 75_000;
const MASKS: usize = 100;
const PACKETS: u64 = 4_096;

// The bits of the twelve fields.
const WIDTHS: [u32; 12] = [24, 16, 16, 32, 16, 32, 32, 32, 32, 8, 16, 16];

// Numbers that look thrown: the function of the generator SplitMix64.
fn mixed(number: u64) -> u64 {
    let a = number.wrapping_mul(0x9e37_79b9_7f4a_7c15);
    let b = (a ^ (a >> 30)).wrapping_mul(0xbf58_476d_1ce4_e5b9);
    let c = (b ^ (b >> 27)).wrapping_mul(0x94d0_49bb_1331_11eb);
    c ^ (c >> 31)
}

// What the flow and the packet of this number have in the twelve fields.
fn values(number: u64) -> [u64; 12] {
    std::array::from_fn(|field| mixed(number * 16 + field as u64) % (1 << WIDTHS[field]))
}

// Which of the fields each mask asks for: three to six of them.
fn masks() -> Vec<u64> {
    let mut masks = Vec::new();
    for round in 0..4_000 {
        let mask = mixed(10_000_000 + round) % 4_096;
        if (3..=6).contains(&mask.count_ones()) && !masks.contains(&mask) && masks.len() < MASKS {
            masks.push(mask);
        }
    }
    masks
}

fn priority(by: &str, number: u64) -> u64 {
    if by == "mask" {
        number % MASKS as u64 % 30
    } else {
        mixed(20_000_000 + number) % 30
    }
}

// The packets: of any flows, or of those with the least priority.
fn packets(by: &str) -> Vec<[u64; 12]> {
    let mut packets = Vec::new();
    let mut round = 0;
    while (packets.len() as u64) < PACKETS {
        let number = mixed(30_000_000 + round) % FLOWS;
        round += 1;
        if by != "last" || priority(by, number) == 0 {
            packets.push(values(number));
        }
    }
    packets
}

// A hash that folds products of 128 bits.
#[derive(Default)]
struct Fold(u64);

impl Hasher for Fold {
    fn write(&mut self, bytes: &[u8]) {
        for part in bytes.chunks(8) {
            let mut word = [0; 8];
            word[..part.len()].copy_from_slice(part);
            self.write_u64(u64::from_ne_bytes(word));
        }
    }

    fn write_u64(&mut self, word: u64) {
        let product = u128::from(self.0 ^ word) * 0x5851_f42d_4c95_7f2d;
        self.0 = (product >> 64) as u64 ^ product as u64;
    }

    fn write_usize(&mut self, word: usize) {
        self.write_u64(word as u64);
    }

    fn finish(&self) -> u64 {
        self.0
    }
}

struct Masked<S> {
    fields: Vec<usize>,
    bound: u64,
    flows: HashMap<Vec<u64>, (u64, u64), S>,
}

fn filled<S: BuildHasher + Default>(by: &str) -> Vec<Masked<S>> {
    let mut all: Vec<Masked<S>> = masks()
        .into_iter()
        .map(|mask| Masked {
            fields: (0..12).filter(|field| mask >> field & 1 == 1).collect(),
            bound: 0,
            flows: HashMap::default(),
        })
        .collect();
    for number in 0..FLOWS {
        let masked = &mut all[number as usize % MASKS];
        let values = values(number);
        let key = masked.fields.iter().map(|field| values[*field]).collect();
        let priority = priority(by, number);
        masked.bound = masked.bound.max(priority);
        masked.flows.insert(key, (priority, number));
    }
    all.sort_by_key(|masked| std::cmp::Reverse(masked.bound));
    all
}

fn found<S: BuildHasher>(all: &[Masked<S>], packet: &[u64; 12], asked: &mut u64) -> Option<(u64, u64)> {
    let mut best: Option<(u64, u64)> = None;
    for masked in all {
        if best.is_some_and(|(priority, _)| masked.bound <= priority) {
            break;
        }
        *asked += 1;
        let mut key = [0; 12];
        for (place, field) in masked.fields.iter().enumerate() {
            key[place] = packet[*field];
        }
        if let Some(flow) = masked.flows.get(&key[..masked.fields.len()]) {
            if best.is_none_or(|(priority, _)| priority < flow.0) {
                best = Some(*flow);
            }
        }
    }
    best
}

// How many look-ups found a flow, and how many masks they asked.
fn run<S: BuildHasher + Default>(by: &str, rounds: u64) -> (u64, u64) {
    let all = filled::<S>(by);
    let packets = packets(by);
    let (mut seen, mut asked) = (0, 0);
    for round in 0..rounds {
        let packet = &packets[(round % PACKETS) as usize];
        if found(&all, packet, &mut asked).is_some() {
            seen += 1;
        }
    }
    (seen, asked)
}

fn main() {
    let words: Vec<String> = std::env::args().skip(1).collect();
    let [hash, by, rounds] = words.as_slice() else { return };
    let rounds = rounds.parse().unwrap_or(0);
    let (seen, asked) = match hash.as_str() {
        "sip" => run::<RandomState>(by, rounds),
        _ => run::<BuildHasherDefault<Fold>>(by, rounds),
    };
    if hash == "asked" {
        println!("{:.1}", asked as f64 / rounds as f64);
    } else {
        println!("{seen}");
    }
}
