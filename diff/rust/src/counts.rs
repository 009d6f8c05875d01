//! The numbers of cases, and the differences that were found.

use std::collections::BTreeMap;

/// A difference that is not listed.
pub const DIFFERENCE: &str = "DIFFERENCE";

#[derive(Default)]
pub struct Counts {
    /// The cases of each family, and those of them that ended with an error.
    cases: BTreeMap<&'static str, (u64, u64)>,
    /// The number of times that something was found, and the shortest input that shows it.
    found: BTreeMap<String, (u64, String)>,
}

impl Counts {
    pub fn add_case(&mut self, family: &'static str, is_refused: bool) {
        let (cases, refused) = self.cases.entry(family).or_default();
        *cases += 1;
        *refused += u64::from(is_refused);
    }

    pub fn add(&mut self, what: &str, input: impl FnOnce() -> String) {
        match self.found.get_mut(what) {
            Some((count, shortest)) => {
                *count += 1;
                // Shorter inputs are searched for among the first.
                if *count < 10_000 {
                    let input = input();
                    if input.len() < shortest.len() {
                        *shortest = input;
                    }
                }
            }
            None => drop(self.found.insert(what.to_owned(), (1, input()))),
        }
    }

    /// Notes a difference between the result of a side and the expected one.
    pub fn check<T: PartialEq + std::fmt::Debug>(
        &mut self,
        side: &str,
        found: T,
        wanted: T,
        input: impl FnOnce() -> String,
    ) {
        if found != wanted {
            let said = format!("{} : found {found:?}, wanted {wanted:?}", input());
            self.add(&format!("{DIFFERENCE} of {side}"), || shortened(said.as_bytes(), 900));
        }
    }

    pub fn merge(&mut self, other: Counts) {
        for (family, (cases, refused)) in other.cases {
            let sum = self.cases.entry(family).or_default();
            *sum = (sum.0 + cases, sum.1 + refused);
        }
        for (what, (count, input)) in other.found {
            match self.found.get_mut(&what) {
                Some((sum, shortest)) => {
                    *sum += count;
                    if input.len() < shortest.len() {
                        *shortest = input;
                    }
                }
                None => drop(self.found.insert(what, (count, input))),
            }
        }
    }

    pub fn differences(&self) -> u64 {
        let found = self.found.iter().filter(|(what, _)| what.starts_with(DIFFERENCE));
        found.map(|(_, (count, _))| count).sum()
    }

    pub fn print(&self, seconds: f64) {
        println!("{:<24} {:>12} {:>12}", "family", "cases", "refused");
        for (family, (cases, refused)) in &self.cases {
            println!("{family:<24} {cases:>12} {refused:>12}");
        }
        println!();
        for (what, (count, input)) in &self.found {
            println!("{what}: {count}, as {input}");
        }
        let cases: u64 = self.cases.values().map(|(cases, _)| cases).sum();
        let differences = self.differences();
        println!("\n{cases} cases in {seconds:.0} s, {differences} differences but the listed ones");
    }
}

/// Returns a text for a reader, without its middle if it is long.
pub fn shortened(text: &[u8], most: usize) -> String {
    if text.len() <= most {
        return text.escape_ascii().to_string();
    }
    let (front, back) = (&text[..most / 2], &text[text.len() - most / 2..]);
    let left_out = text.len() - front.len() - back.len();
    format!("{}..{left_out} bytes..{}", front.escape_ascii(), back.escape_ascii())
}
