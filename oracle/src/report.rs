//! Counts the comparisons, and prints the first differences and the counts.

const PRINTED: u64 = 10;

/// How often a call was accepted, and how often it was refused with each number.
pub type Outcomes = [u64; 13];

pub struct Report {
    pub comparisons: u64,
    pub differences: u64,
    pub outcomes: Vec<(&'static str, Outcomes)>,
    /// How often each function was called that refuses nothing.
    functions: Vec<(&'static str, u64)>,
}

impl Report {
    pub fn new() -> Report {
        Report { comparisons: 0, differences: 0, outcomes: Vec::new(), functions: Vec::new() }
    }

    /// Counts a call of `name` whose results are ours and theirs. Any NaN equals any NaN.
    pub fn compare(&mut self, name: &'static str, inputs: &[f32], ours: f32, theirs: f32) {
        let same = ours.to_bits() == theirs.to_bits() || ours.is_nan() && theirs.is_nan();
        self.count(same, || {
            let inputs: Vec<String> = inputs.iter().map(|&x| shown(x)).collect();
            format!("{name} of {}: ours {}, theirs {}", inputs.join(", "), shown(ours), shown(theirs))
        });
        match self.functions.iter_mut().find(|function| function.0 == name) {
            Some((_, times)) => *times += 1,
            None => self.functions.push((name, 1)),
        }
    }

    /// Counts a call whose results are the same, or else differ as told.
    pub fn count(&mut self, same: bool, told: impl FnOnce() -> String) {
        self.comparisons += 1;
        if same {
            return;
        }
        self.differences += 1;
        if self.differences <= PRINTED {
            println!("{}", told());
        }
    }

    /// Whether the function of this name was called.
    pub fn has(&self, name: &str) -> bool {
        let called = self.outcomes.iter().any(|(of, times)| *of == name && times.iter().sum::<u64>() > 0);
        called || self.functions.iter().any(|(of, _)| *of == name)
    }

    /// Prints how often each function was called, and what the calls answered.
    pub fn print_functions(&self) {
        for (name, times) in &self.functions {
            println!("oracle: {name} compared {times} times");
        }
        for (name, [accepted, refused @ ..]) in &self.outcomes {
            let met = (1..).zip(refused).filter(|(_, &times)| times > 0);
            let met: Vec<String> = met.map(|(number, times)| format!("{number}: {times}")).collect();
            let met = if met.is_empty() { "none".to_string() } else { format!("with {}", met.join(", ")) };
            println!("oracle: {name} accepted {accepted}, refused {met}");
        }
    }
}

fn shown(x: f32) -> String {
    format!("{:08x} ({x:e})", x.to_bits())
}
