//! What was compared, how often, and what came up.
use std::collections::BTreeMap;

#[derive(Default)]
pub struct Tally {
    compared: BTreeMap<&'static str, u64>,
    refusals: BTreeMap<(&'static str, u8), u64>,
    outside: BTreeMap<(&'static str, String), (u64, String)>,
}

impl Tally {
    pub fn compared(&mut self, what: &'static str) {
        *self.compared.entry(what).or_default() += 1;
    }

    pub fn add(&mut self, what: &'static str, n: usize) {
        *self.compared.entry(what).or_default() += n as u64;
    }

    /// Both gave this refusal.
    pub fn refused(&mut self, what: &'static str, number: u8) {
        *self.refusals.entry((what, number)).or_default() += 1;
    }

    /// The two disagree outside the part on which they must agree, as a class of differences says. Of the inputs that are looked at, the first ones and then
    /// some, the shortest is kept.
    pub fn outside(
        &mut self,
        what: &'static str,
        class: impl ToString,
        input: impl FnOnce() -> String,
    ) {
        let (count, shortest) = self.outside.entry((what, class.to_string())).or_default();
        *count += 1;
        if *count < 200 || *count % 64 == 0 {
            let text = input();
            if shortest.is_empty() || text.len() < shortest.len() {
                *shortest = text;
            }
        }
    }

    /// The classes that came up.
    pub fn classes(&self) -> Vec<String> {
        self.outside
            .keys()
            .map(|(what, class)| format!("{what}: {class}"))
            .collect()
    }

    /// What was compared, and the refusals that came from both.
    pub fn kinds(&self) -> Vec<String> {
        let refusals = self.refusals.keys();
        let refusals = refusals.map(|(what, number)| format!("{what}: {number}"));
        let compared = self.compared.keys().map(|what| what.to_string());
        compared.chain(refusals).collect()
    }

    pub fn print(&self) {
        println!("compared:");
        for (what, count) in &self.compared {
            println!("  {what}: {count}");
        }
        println!("refused by both:");
        for ((what, number), count) in &self.refusals {
            println!("  {what}: {number} {count} times");
        }
        println!("outside, each as its class says:");
        for ((what, class), (count, shortest)) in &self.outside {
            let shown: String = shortest.chars().take(240).collect();
            println!("  {what}: {class} {count} times, such as {shown}");
        }
    }
}
