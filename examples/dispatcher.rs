//! The dispatcher's cycle of dispatcher.c through the safe wrapper; it prints the same text. A call's refusal is an
//! `Err`, so `?` and `match` handle it.
//! Build: rustc --edition 2021 -L crates/scorvemaglio/out examples/dispatcher.rs
mod scorvemaglio;

use scorvemaglio::{sizing_of, Tuple, ALARM, CONFIRMED};

// A word has one bit for each signal: the key is turned, the doors are closed, the car is reserved.
const KEY_TURNED: u32 = 1;
const DOORS_CLOSED: u32 = 2;
const SIGNALS: u32 = 3;

// Measured at the site, in microseconds.
const LEAST_GAP: u32 = 9_000;
const GREATEST_GAP: u32 = 12_000;
const GREATEST_DELAY: u32 = 15_000;

// What the two units show in each cycle; a real dispatcher reads them here.
const SHOWN: [(u32, u32); 21] = [
    (4, 4), (5, 4), (5, 5), (5, 5), (5, 5), (5, 5),         // a reserved car; its key is turned, unit 1 sees it first
    (7, 5), (7, 5), (7, 7), (7, 7), (7, 7), (7, 7),         // the doors close
    (7, 3), (7, 3), (7, 3), (7, 3), (7, 7), (7, 7), (7, 7), // unit 2 loses the reservation, unit 1 does not
    (7, 8), (7, 7),                                         // unit 2 shows a signal that is not there
];

/// What the car may do by a confirmed word.
fn order_for(word: u32) -> &'static str {
    let both = KEY_TURNED | DOORS_CLOSED;
    if word & both == both { "run the car" } else { "wait at the floor" }
}

/// One cycle. A refused step leaves the vote as it was.
fn cycle(vote: &mut Tuple, unit_1: u32, unit_2: u32) -> String {
    match vote.step(unit_1, unit_2) {
        Err(refusal) => format!("refused with {refusal}: hold the car"),
        Ok(answer) if answer.mark == ALARM => {
            format!("word {}, alarm of signals {}: hold the car", answer.word, answer.mask)
        }
        Ok(answer) => {
            let mark = if answer.mark == CONFIRMED { "confirmed" } else { "held" };
            format!("word {}, {mark}: {}", answer.word, order_for(answer.word))
        }
    }
}

/// The `Err` of a refused sizing or constructor is its number, which ends the program with status 1.
fn main() -> Result<(), u32> {
    // A count for the votes and one for the confirmation, both at most MAX_COUNT.
    let sizing = sizing_of(SIGNALS, LEAST_GAP, GREATEST_GAP, GREATEST_DELAY)?;
    println!("votes {}, count {}, quiet gap {} us", sizing.votes, sizing.count, sizing.quiet);
    // The fresh state is made from the word that both units show while the car rests: dispatcher.c says why.
    let (rest, same) = SHOWN[0];
    assert_eq!(rest, same, "wait until the car rests");
    let mut vote = Tuple::from_word(SIGNALS, sizing.votes as u32, sizing.count as u32, rest)?;
    for (i, (unit_1, unit_2)) in SHOWN.into_iter().enumerate() {
        println!("cycle {i:2}, units {unit_1} and {unit_2}: {}", cycle(&mut vote, unit_1, unit_2));
    }
    Ok(())
}
