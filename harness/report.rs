//! One run of the comparison: what it was asked for, and what it says.

use crate::random::Random;

pub struct Run {
    /// Every random case follows from it.
    pub seed: u64,
    /// How many times the usual number of random cases.
    pub times: u64,
}

impl Run {
    /// The random cases of that name.
    pub fn random(&self, name: &str) -> Random {
        Random::new(self.seed, name)
    }

    pub fn check(&self, name: &'static str) -> Check {
        Check { name, random: self.random(name), edges: 0, cases: 0 }
    }
}

/// The comparison of one function.
pub struct Check {
    name: &'static str,
    pub random: Random,
    edges: u64,
    cases: u64,
}

impl Check {
    /// Compares on an edge or on a random case.
    pub fn see(&mut self, edge: bool, inputs: &[f64], rattle: &[f64], rust: &[f64]) {
        if edge {
            self.edge(inputs, rattle, rust);
        } else {
            self.case(inputs, rattle, rust);
        }
    }

    /// Compares on an edge.
    pub fn edge(&mut self, inputs: &[f64], rattle: &[f64], rust: &[f64]) {
        self.edges += 1;
        self.compare(inputs, rattle, rust);
    }

    /// Compares on a random case.
    pub fn case(&mut self, inputs: &[f64], rattle: &[f64], rust: &[f64]) {
        self.cases += 1;
        self.compare(inputs, rattle, rust);
    }

    /// Compares bytes, on an edge or on a random case.
    pub fn see_bytes(&mut self, edge: bool, given: &[u8], rattle: &[u8], rust: &[u8]) {
        self.edges += u64::from(edge);
        self.cases += u64::from(!edge);
        if rattle != rust {
            println!("comparison: {}: DIFFERENT", self.name);
            for (what, bytes) in [("given", given), ("Rattle", rattle), ("Rust", rust)] {
                let hex: String = bytes.iter().map(|b| format!("{b:02x}")).collect();
                println!("  {what}: {} bytes {hex}", bytes.len());
            }
            std::process::exit(1);
        }
    }

    pub fn done(self) {
        println!(
            "comparison: {}: equal on {} random cases and {} edges",
            self.name, self.cases, self.edges
        );
    }

    fn compare(&self, inputs: &[f64], rattle: &[f64], rust: &[f64]) {
        let equal =
            rattle.len() == rust.len() && rattle.iter().zip(rust).all(|(a, b)| same(*a, *b));
        if !equal {
            self.stop_at(inputs, rattle, rust);
        }
    }

    /// Prints a difference with its bits, and ends the run.
    fn stop_at(&self, inputs: &[f64], rattle: &[f64], rust: &[f64]) -> ! {
        println!("comparison: {}: DIFFERENT", self.name);
        for (what, reals) in [("given", inputs), ("Rattle", rattle), ("Rust", rust)] {
            for (i, x) in reals.iter().enumerate() {
                println!("  {what} {i}: {:#018x} {x:e}", x.to_bits());
            }
        }
        std::process::exit(1)
    }
}

/// Equal bits, or two NaNs, whose bits the machine may choose.
fn same(a: f64, b: f64) -> bool {
    a.to_bits() == b.to_bits() || (a.is_nan() && b.is_nan())
}
