//! Generated sheets, short and long, with numbers at the edges, and damaged.

use crate::asking::{check, unlimited, Answer};
use host::generate::Random;
use host::reference::{refusal, MAX_EDGES, MAX_TEXT, SPEC_EDGES, TEXT};
use host::sheet::Line;
use host::sheet_texts::{damaged, disturbed, mixed_text, plain_text, sheet, small_sheet, Span};

const SHEETS: u64 = 6_000;
const LONG_SHEETS: u64 = 60;

/// The number and the line of the refusal that the lines meet, if any: each line is looked
/// at beside all earlier ones.
fn first_fault(lines: &[Line]) -> Option<(i64, usize)> {
    let outside = |number: i64| !(0..1_000).contains(&number);
    for (place, line) in lines.iter().enumerate() {
        let Line { initiator, block, base, size } = *line;
        let other_size = |earlier: &Line| earlier.block == block && earlier.size != size;
        if outside(initiator) || outside(block) || base < 0 || size < 1 || base + size > 1 << 48 {
            return Some((17, place + 2));
        } else if lines[..place].iter().any(other_size) {
            return Some((18, place + 2));
        }
    }
    None
}

/// How often sheets were taken, and how often each refusal was the answer.
#[derive(Default)]
struct Answers {
    taken: u64,
    refusals: [u64; 19],
}

impl Answers {
    /// Asks, and counts the answer.
    fn ask(&mut self, text: &[u8]) -> Answer {
        let answer = unlimited(text);
        check(text, &answer);
        match &answer {
            Ok(_) => self.taken += 1,
            Err(refusal) => self.refusals[refusal.number as usize] += 1,
        }
        answer
    }

    /// The lines as a text, and the text damaged.
    fn ask_lines(&mut self, random: &mut Random, lines: &[Line]) {
        let texts = [plain_text(lines), mixed_text(random, lines)];
        let fault = first_fault(lines).map(|(number, line)| refusal(number, TEXT, line));
        let crowded = (lines.len() > MAX_EDGES).then_some(refusal(1, SPEC_EDGES, 0));
        for text in &texts {
            let too_long = (text.len() > MAX_TEXT).then_some(refusal(12, TEXT, 0));
            assert_eq!(self.ask(text).err(), too_long.or(fault).or(crowded), "{lines:?}");
        }
        for _ in 0..2 {
            _ = self.ask(&damaged(random, &texts[1]));
        }
    }
}

#[test]
fn small_sheets() {
    let mut answers = Answers::default();
    for seed in 0..SHEETS {
        let random = &mut Random::new(seed);
        let span = random.pick(&[Span::Near, Span::Far]);
        let lines = small_sheet(random, span);
        assert_eq!(first_fault(&lines), None);
        answers.ask_lines(random, &lines);
        let disturbed = disturbed(random, &lines);
        answers.ask_lines(random, &disturbed);
    }
    let Answers { taken, refusals } = answers;
    println!("taken {taken}; refusals by number {refusals:?}");
    assert!(taken > SHEETS, "{taken}");
    for number in [12, 13, 14, 17, 18] {
        assert!(refusals[number] > SHEETS / 20, "refusal {number} was rarely the answer");
    }
}

#[test]
fn long_sheets() {
    let mut answers = Answers::default();
    for seed in 0..LONG_SHEETS {
        let random = &mut Random::new(seed);
        let span = random.pick(&[Span::Near, Span::Near, Span::Far]);
        let lines = match random.below(4) {
            0 => random.between(MAX_EDGES as i64 - 2, MAX_EDGES as i64 + 2),
            _ => random.between(100, 3_000),
        };
        let most_numbers = random.pick(&[1, 30, 1_000, 9_000]);
        let lines = sheet(random, lines as usize, most_numbers, span);
        answers.ask_lines(random, &lines);
        let disturbed = disturbed(random, &lines);
        answers.ask_lines(random, &disturbed);
    }
    let Answers { taken, refusals } = answers;
    println!("taken {taken}; refusals by number {refusals:?}");
    assert!(taken > LONG_SHEETS, "{taken}");
    for number in [1, 12, 14, 17, 18] {
        assert!(refusals[number] > 0, "refusal {number} was never the answer");
    }
}
