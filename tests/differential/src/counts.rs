//! What a run has met.

use crate::judge::Judged;
use crate::rounds::Verdict;
use std::collections::BTreeMap;
use std::fmt;

#[derive(Default)]
pub struct Counts {
    cases: BTreeMap<u8, usize>,
    /// Of the cases those that are answered by a refusal or by nothing else.
    refused_whole: BTreeMap<u8, usize>,
    pub bare: usize,
    refused: BTreeMap<u8, usize>,
    /// Of the lists of requests those that are so.
    lists: BTreeMap<&'static str, usize>,
    alike: usize,
    different: usize,
    most_rounds: usize,
    formulas: usize,
    largest_formula: usize,
    pub differences: usize,
}

impl Counts {
    pub fn case(&mut self, tag: u8, judged: &Judged) {
        *self.cases.entry(tag).or_default() += 1;
        *self.refused_whole.entry(tag).or_default() += usize::from(is_refused(tag, &judged.own));
        let met = &judged.met;
        for &number in &met.refused {
            *self.refused.entry(number).or_default() += 1;
        }
        for &(name, so) in &met.lists {
            *self.lists.entry(name).or_default() += usize::from(so);
        }
        if let Some((verdict, rounds)) = met.verdict {
            match verdict {
                Verdict::Alike => self.alike += 1,
                Verdict::Different => self.different += 1,
            }
            self.most_rounds = self.most_rounds.max(rounds);
        }
        self.formulas += met.formulas;
        self.largest_formula = self.largest_formula.max(met.largest_formula);
    }
}

/// Whether a job as a whole is refused, as told by its first line. Of a list
/// of requests only the models count.
fn is_refused(tag: u8, answer: &[String]) -> bool {
    let first = answer.first().map_or("", String::as_str);
    let refused = tag != b'C' && first.starts_with("refused");
    refused || first == "none" || first == "bad" || first.starts_with("model refused")
}

impl fmt::Display for Counts {
    fn fmt(&self, out: &mut fmt::Formatter<'_>) -> fmt::Result {
        write!(out, "cases:")?;
        for (tag, count) in &self.cases {
            write!(
                out,
                " {} {count} ({} refused)",
                char::from(*tag),
                self.refused_whole[tag]
            )?;
        }
        writeln!(
            out,
            ", all {}; {} of J by `pair` too",
            self.cases.values().sum::<usize>(),
            self.bare
        )?;
        write!(out, "refused:")?;
        for number in 1..=22 {
            write!(
                out,
                " {number}: {}",
                self.refused.get(&number).unwrap_or(&0)
            )?;
        }
        writeln!(out)?;
        if !self.lists.is_empty() {
            let told = |(name, count)| format!("{name} {count}");
            let lists: Vec<String> = self.lists.iter().map(told).collect();
            writeln!(out, "lists of requests: {}", lists.join(", "))?;
        }
        writeln!(
            out,
            "verdicts: alike {}, different {}, most rounds {}",
            self.alike, self.different, self.most_rounds
        )?;
        writeln!(
            out,
            "formulas checked: {}, the largest of {} nodes",
            self.formulas, self.largest_formula
        )?;
        write!(out, "differences: {}", self.differences)
    }
}

#[cfg(test)]
mod tests {
    use super::*;
    use crate::driver::Case;
    use crate::judge::judge;

    #[test]
    fn generated_cases_meet_each_refusal_and_list() {
        let mut counts = Counts::default();
        for number in 0..4000 {
            let case = Case::new(1, number);
            counts.case(case.job.tag, &judge(&case.job, &[]));
        }
        println!("{counts}");
        assert!((1..=22).all(|number| counts.refused.contains_key(&number)));
        assert!(counts.lists.values().all(|&count| count > 20));
    }
}
