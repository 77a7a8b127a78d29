//! What a run found: counts, the worst distance, and each class of difference with its smallest input.
use std::collections::BTreeMap;

pub const A: &str = "domain (a): NaN accepted there, BAND here";
pub const B: &str = "domain (b): one refuses, a weight or number within two parts in 1,000,000 of a limit";
pub const C: &str = "infinite band: BAND here, refused later there";
pub const D: &str = "JPEG values here, no set there since another kind is refused";
pub const E: &str = "outside the domain since document 02's ticket 9: a raw denominator of zero or below, DENOM here, accepted there";
pub const F: &str = "the same, refused there too";

#[derive(Default)]
pub struct Report {
    pub counts: BTreeMap<String, u64>,
    classes: BTreeMap<&'static str, (u64, String)>,
    failures: BTreeMap<String, (u64, String)>,
    pub worst: f64,
    pub worst_at: String,
    pub ulps: u32,
}

fn smaller(old: &mut String, new: String) {
    if old.is_empty() || (new.len(), &new) < (old.len(), old) {
        *old = new;
    }
}

impl Report {
    pub fn count(&mut self, what: &str, n: u64) {
        match self.counts.get_mut(what) {
            Some(c) => *c += n,
            None => {
                self.counts.insert(what.into(), n);
            }
        }
    }

    pub fn class(&mut self, class: &'static str, input: String) {
        let entry = self.classes.entry(class).or_default();
        entry.0 += 1;
        smaller(&mut entry.1, input);
    }

    pub fn failure(&mut self, what: String, input: String) {
        let entry = self.failures.entry(what).or_default();
        entry.0 += 1;
        smaller(&mut entry.1, input);
    }

    pub fn check(&mut self, ok: bool, what: &str, input: impl FnOnce() -> String) {
        if !ok {
            self.failure(what.into(), input());
        }
    }

    /// Prints all; says whether no difference stands outside the classes.
    pub fn print(&self) -> bool {
        for (what, n) in &self.counts {
            println!("{n:>12}  {what}");
        }
        println!("worst distance of an interpolated weight: {:.4} parts in 1,000,000, {} units in the last place", self.worst * 1e6, self.ulps);
        println!("  at {}", self.worst_at);
        for class in [A, B, C, D, E, F] {
            match self.classes.get(class) {
                Some((n, input)) => println!("{n:>12}  {class}\n              smallest: {input}"),
                None => println!("{:>12}  {class}", 0),
            }
        }
        for (what, (n, input)) in &self.failures {
            println!("FAILURE {n:>4}  {what}\n              smallest: {input}");
        }
        println!("{} differences outside the classes", self.failures.values().map(|f| f.0).sum::<u64>());
        self.failures.is_empty()
    }
}

pub fn hex(bytes: &[u8]) -> String {
    if bytes.is_empty() {
        return "(empty)".into();
    }
    bytes.iter().map(|b| format!("{b:02x}")).collect()
}
