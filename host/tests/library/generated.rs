//! Generated texts, short and long, valid and damaged, asked from several threads.

use crate::asking::{check, Rooms, Unlimited};
use host::generate::{
    damaged, disturbed, long_map, mixed_text, plain_text, raised, small_map, Random,
};
use host::reference::MAX_TEXT;

const THREADS: u64 = 4;
const DEFAULT_MAPS: u64 = 3_000;
/// Of so many maps one is long, and one is asked with every length of the buffer.
const LONG_ONE_IN: u64 = 100;
const EVERY_ONE_IN: u64 = 10;

pub fn maps_per_thread() -> u64 {
    let maps = std::env::var("HEALDRIP_MAPS").ok();
    maps.map_or(DEFAULT_MAPS, |count| count.parse().expect("HEALDRIP_MAPS is a number"))
}

/// How often each whole verdict and each refusal was the answer.
#[derive(Default)]
struct Answers {
    verdicts: [u64; 3],
    refusals: [u64; 17],
}

impl Answers {
    fn add(&mut self, answer: &Unlimited) {
        match answer {
            Ok(report) => {
                let end = report.len() - 1;
                let last = report[..end].iter().rposition(|&byte| byte == b'\n').unwrap() + 1;
                self.verdicts[usize::from(report[last] - b'0')] += 1;
            }
            Err(refusal) => self.refusals[refusal.number as usize] += 1,
        }
    }

    fn join(&mut self, other: &Answers) {
        let add = |(sum, count): (&mut u64, &u64)| *sum += count;
        self.verdicts.iter_mut().zip(&other.verdicts).for_each(add);
        self.refusals.iter_mut().zip(&other.refusals).for_each(add);
    }
}

fn check_short(seed: u64, answers: &mut Answers) {
    let random = &mut Random::new(seed);
    let mut tables = small_map(random);
    if random.chance(30) {
        tables = raised(random, &tables);
    }
    let text = mixed_text(random, &tables);
    let every = seed.is_multiple_of(EVERY_ONE_IN);
    answers.add(&check(&text, if every { Rooms::Every } else { Rooms::Around }));
    answers.add(&check(&damaged(random, &text), Rooms::Around));
    let disturbed = plain_text(&disturbed(random, &tables));
    answers.add(&check(&disturbed, Rooms::Around));
    answers.add(&check(&damaged(random, &disturbed), Rooms::Few));
}

fn check_long(seed: u64, answers: &mut Answers) {
    let random = &mut Random::new(seed);
    let bytes = random.between(2_000, MAX_TEXT as i64 + 2_000) as usize;
    let tables = long_map(random, bytes);
    let text = mixed_text(random, &tables);
    answers.add(&check(&text, Rooms::Few));
    answers.add(&check(&damaged(random, &text), Rooms::Few));
    answers.add(&check(&plain_text(&disturbed(random, &tables)), Rooms::Few));
}

fn check_seeds(seeds: std::ops::Range<u64>) -> Answers {
    let mut answers = Answers::default();
    for seed in seeds {
        check_short(seed, &mut answers);
        if seed.is_multiple_of(LONG_ONE_IN) {
            check_long(seed, &mut answers);
        }
    }
    answers
}

#[test]
fn generated_texts_in_several_threads() {
    let maps = maps_per_thread();
    let mut answers = Answers::default();
    std::thread::scope(|scope| {
        let starts = (0..THREADS).map(|thread| thread * 1_000_000_000);
        let threads: Vec<_> =
            starts.map(|start| scope.spawn(move || check_seeds(start..start + maps))).collect();
        threads.into_iter().for_each(|thread| answers.join(&thread.join().unwrap()));
    });
    let Answers { verdicts, refusals } = answers;
    println!("equal, partial, different {verdicts:?}; refusals by number {refusals:?}");
    if maps >= DEFAULT_MAPS {
        let reports: u64 = verdicts.iter().sum();
        assert!(verdicts.iter().all(|&count| count > reports / 6), "{verdicts:?}");
        // 6 takes a chain of 65 edges, and 11 comes from the buffer.
        for number in [1, 2, 3, 4, 5, 7, 8, 9, 10, 12, 13, 14, 16] {
            assert!(refusals[number] > 0, "refusal {number} was never the answer");
        }
    }
}
