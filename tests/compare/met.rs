//! What the sheets of `compare --self` are like: every refusal of reading, 8, every size, with land rules, with a
//! last line and under rule 2 too, and every kind of spare trigger, of last line and of sheet under rule 2 are
//! wanted.

use crate::cases::Checks;
use crate::reference::{self, REFUSALS, Refusal, Survey, Tables};
use crate::{last, rule, spares};

/// Kinds of last lines are looked for on sheets with no more selections, whose lines are found soon, and those of
/// sheets under rule 2 there too.
const FEW_SELECTIONS: u64 = 20;

/// How many sheets of each kind were met.
#[derive(Default)]
pub struct Met {
    /// The refusals, in the order of `REFUSALS`.
    refused: [u32; REFUSALS.len()],
    /// Good sheets by panels and triggers: all, those with land rules, those with a last line, those under rule 2.
    sizes: [[[u32; 6]; 6]; 4],
    spares: [u32; spares::KINDS.len()],
    last: [u32; last::KINDS.len()],
    rule: [u32; rule::KINDS.len()],
    lagless: [u32; rule::REFUSED.len()],
}

impl Met {
    pub fn sheet(&mut self, sheet: &[u8]) {
        match reference::read(sheet).and_then(reference::tables) {
            Ok(tables) => self.good(tables),
            Err(number) => self.refused(sheet, number),
        }
    }

    fn refused(&mut self, sheet: &[u8], number: Refusal) {
        for (count, refusal) in self.refused.iter_mut().zip(REFUSALS) {
            *count += u32::from(number == refusal);
        }
        if number == 14 {
            let sheet = reference::read(&rule::with_marks(sheet));
            let sheet = sheet.expect("14 is the last that reading refuses");
            for (count, (_, is_met)) in self.lagless.iter_mut().zip(&rule::REFUSED) {
                *count += u32::from(is_met(&sheet));
            }
        }
    }

    fn good(&mut self, tables: Tables) {
        let sheet = &tables.sheet;
        let has = [
            true,
            sheet.has_land_rules(),
            sheet.last.is_some(),
            sheet.by_spread,
        ];
        for (sizes, has) in self.sizes.iter_mut().zip(has) {
            sizes[sheet.panels - 1][sheet.triggers - 1] += u32::from(has);
        }
        for (count, (_, is_met)) in self.spares.iter_mut().zip(&spares::KINDS) {
            *count += u32::from(is_met(sheet));
        }
        if sheet.last.is_none() && !sheet.by_spread {
            return;
        }
        let survey = reference::walked(tables);
        if survey.selections() <= FEW_SELECTIONS {
            self.surveyed(&survey);
        }
    }

    fn surveyed(&mut self, survey: &Survey) {
        let sheet = &survey.tables.sheet;
        if sheet.by_spread {
            for (count, (_, is_met)) in self.rule.iter_mut().zip(&rule::KINDS) {
                *count += u32::from(is_met(survey));
            }
        }
        if sheet.last.is_none() {
            return;
        }
        let lines = survey.lines();
        for (count, (_, is_met)) in self.last.iter_mut().zip(&last::KINDS) {
            *count += u32::from(is_met(sheet, &lines));
        }
    }

    /// A check for each kind.
    pub fn check(&self, checks: &mut Checks) {
        let mut check = |what: &str, count: u32| checks.check(&format!("met: {what}"), count > 0);
        for (refusal, count) in REFUSALS.iter().zip(&self.refused) {
            check(&format!("sheets refused with {refusal}"), *count);
        }
        let least =
            |sizes: &[[u32; 6]; 6]| sizes.iter().flatten().copied().fold(u32::MAX, u32::min);
        let with = ["nothing more", "land rules", "a last line", "rule 2"];
        for (with, sizes) in with.iter().zip(&self.sizes) {
            check(
                &format!("good sheets of every size with {with}"),
                least(sizes),
            );
        }
        for (count, (kind, _)) in self.spares.iter().zip(&spares::KINDS) {
            check(&format!("sheets with {kind}"), *count);
        }
        for (count, (kind, _)) in self.last.iter().zip(&last::KINDS) {
            check(&format!("sheets with a last line and {kind}"), *count);
        }
        for (count, (kind, _)) in self.rule.iter().zip(&rule::KINDS) {
            check(&format!("sheets under rule 2 with {kind}"), *count);
        }
        for (count, (kind, _)) in self.lagless.iter().zip(&rule::REFUSED) {
            check(&format!("sheets refused with 14 for {kind}"), *count);
        }
    }
}
