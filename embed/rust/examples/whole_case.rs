//! The whole case from Rust: plans it, chooses times from its lines, tests them, finds the latest that
//! are no later than wished, lets a trigger wait for a panel, plans it for a desk with an idle trigger, with
//! last moments and by the spread of landings, and compares it with other sheets; then makes a sheet to try
//! and plans that.
//!
//!     tools/library
//!     cargo run --offline --manifest-path embed/rust/Cargo.toml --example whole_case

use std::error::Error;
use tuzhelar::{CAPPED_WORDS, HIRE_BYTES, LINE_WORDS, Refusal};
use tuzhelar::{hire, kept, latest, plan, same, test};

const SHEET: &[u8] = b"panels=2
triggers=2
lag=2,0
lag=4,1
floor=5,2
due=1,2
after=-,-
after=-,-
";

/// The whole case with land lines: trigger 2 comes at most 1 before panel 1 has changed.
const WAITING: &[u8] = b"panels=2
triggers=2
lag=2,0
lag=4,1
floor=5,2
due=1,2
after=-,-
after=-,-
land=-,-
land=-1,-
";

/// The whole case on a desk whose third trigger is wired but idle: it is spare, and its due mark counts for
/// nothing.
const IDLE: &[u8] = b"panels=2
triggers=3
lag=2,0,-
lag=4,1,-
floor=5,2
due=1,2,-700
after=-,-,-
after=-,-,-
after=-,-,-
";

/// The whole case where neither panel may land after 6.
const DOWNBEAT: &[u8] = b"panels=2
triggers=2
lag=2,0
lag=4,1
floor=5,2
due=1,2
after=-,-
after=-,-
last=6,6
";

/// The whole case in a house that goes by the spread of landings: without marks.
const SPREAD: &[u8] = b"rule=2
panels=2
triggers=2
lag=2,0
lag=4,1
after=-,-
after=-,-
";

/// Trigger 2 comes 3 after trigger 1, and trigger 1 at most 1 before trigger 2: 3 − 1 is above 0.
const NO_ORDER: &[u8] = b"panels=2
triggers=2
lag=2,0
lag=4,1
floor=5,2
due=1,2
after=-,-1
after=3,-
";

/// The whole case with its panels exchanged.
const EXCHANGED: &[u8] = b"panels=2
triggers=2
lag=4,1
lag=2,0
floor=2,5
due=1,2
after=-,-
after=-,-
";

/// Last moments: a cap for each line. Times are in time where no weight is greater than its cap.
fn print_downbeat() -> Result<(), Refusal> {
    let mut space = [0; 2 * CAPPED_WORDS];
    let planned = plan(DOWNBEAT, &mut space)?;
    print!("with last moments {planned}");
    for weights in [[3, 2], [3, 3]] {
        let times = planned.times(&weights).expect("one weight for each line");
        println!(
            "weights {weights:?}, times {times:?}, tightest and in time {}",
            test(DOWNBEAT, &times)?
        );
    }
    let wished = [5, 9];
    let reached = latest(DOWNBEAT, &wished, &mut space)?;
    println!("wished {wished:?}; instead {:?}", reached.times());
    Ok(())
}

/// A sheet to try, made from its sizes and a state; the next would be made from the state that is returned.
fn print_hired() -> Result<(), Refusal> {
    let mut bytes = [0; HIRE_BYTES];
    let hired = hire(2, 2, 1, &mut bytes)?;
    println!("made from state 1, next state {}", hired.state);
    print!("{}", String::from_utf8_lossy(hired.sheet));
    print!("its {}", plan(hired.sheet, &mut [0; 20 * LINE_WORDS])?);
    if let Err(refusal) = hire(2, 7, 1, &mut bytes) {
        println!("refused={}: {refusal}", refusal.number());
    }
    Ok(())
}

fn main() -> Result<(), Box<dyn Error>> {
    // Space for one line is too little; the refusal says how many words to lend.
    let mut space = vec![0; LINE_WORDS];
    if let Err(refusal) = plan(SHEET, &mut space) {
        println!("refused={}: {refusal}", refusal.number());
        if let Refusal::Space { words, .. } = refusal {
            space.resize(words, 0);
        }
    }
    let planned = plan(SHEET, &mut space)?;
    print!("{planned}");

    // One weight for each line: every choice gives tightest times.
    for weights in [[0, 0], [1, 0], [0, 3]] {
        let times = planned.times(&weights).expect("one weight for each line");
        println!(
            "weights {weights:?}, times {times:?}, tightest {}",
            test(SHEET, &times)?
        );
    }

    // Times that were wished need not be tightest. These are the latest that are, of those no later.
    let wished = [0, 2];
    let reached = latest(SHEET, &wished, &mut space)?;
    println!(
        "wished {wished:?}, tightest {}; instead {:?}, tightest {}",
        test(SHEET, &wished)?,
        reached.times(),
        test(SHEET, reached.times())?
    );

    let waiting = plan(WAITING, &mut space)?;
    println!(
        "with land lines {} line(s), times {:?}",
        waiting.count,
        waiting.times(&[1]).expect("one weight for each line")
    );

    let idle = plan(IDLE, &mut space)?;
    println!(
        "with an idle trigger deviation {}, spare byte {}, lines {}",
        idle.deviation,
        idle.spares,
        idle.lines()
            .map(|line| line.to_string())
            .collect::<Vec<_>>()
            .join(" and ")
    );

    print_downbeat()?;
    print!("under rule 2 {}", plan(SPREAD, &mut space)?);

    for (i, panel) in kept(SHEET)?.panels().iter().enumerate() {
        println!(
            "panel {} keeps byte {}, {} trigger(s)",
            i + 1,
            panel.byte,
            panel.count
        );
    }
    let mut other_space = space.clone();
    let compared = same(SHEET, EXCHANGED, &mut space, &mut other_space)?;
    println!("panels exchanged: {:?} timings", compared.likeness);
    let compared = same(SHEET, IDLE, &mut space, &mut other_space)?;
    println!(
        "a desk with an idle trigger: {:?} sheets",
        compared.likeness
    );
    let compared = same(SHEET, SPREAD, &mut space, &mut other_space)?;
    println!("under rule 2: {:?} timings", compared.likeness);
    other_space.resize(2 * CAPPED_WORDS, 0);
    let compared = same(SHEET, DOWNBEAT, &mut space, &mut other_space)?;
    println!("with last moments: {:?} timings", compared.likeness);

    if let Err(refusal) = plan(NO_ORDER, &mut space) {
        println!("refused={}: {refusal}", refusal.number());
    }
    print_hired()?;
    Ok(())
}
