//! The text that the planning program writes.

use crate::plain::{LINE_WORDS, NoPlan, Plan};
use std::fmt::Write;

/// The word of an absent component.
const ABSENT: i32 = i32::MIN;

/// The text of an answer, the lines from the words in the lent space.
pub fn answer(answer: &Result<Plan, NoPlan>, space: &[i32]) -> String {
    match answer {
        Ok(plan) => plan_text(plan, space),
        Err(NoPlan::Refused(refusal)) => format!("refused={}\n", *refusal as u8),
        Err(NoPlan::NoRoom { count, .. }) => format!("refused=9\ncount={count}\n"),
    }
}

fn plan_text(plan: &Plan, space: &[i32]) -> String {
    let mut text = format!(
        "deviation={}\nsteps={}\nselections={}\ncount={}\n",
        plan.deviation, plan.steps, plan.selections, plan.count
    );
    for words in space.chunks_exact(plan.line_words).take(plan.count) {
        push_line(&mut text, &words[1..=words[0] as usize], plan.spares);
        if let Some(cap) = words.get(LINE_WORDS) {
            writeln!(text, "cap={cap}").expect("a string takes every text");
        }
    }
    text
}

fn push_line(text: &mut String, components: &[i32], spares: u8) {
    let mut before = "line=";
    for (j, &component) in components.iter().enumerate() {
        text.push_str(before);
        if spares >> j & 1 == 1 {
            text.push('s');
        } else {
            push_item(text, component);
        }
        before = ",";
    }
    text.push('\n');
}

fn push_item(text: &mut String, component: i32) {
    if component == ABSENT {
        text.push('-');
    } else {
        write!(text, "{component}").expect("a string takes every text");
    }
}
