// What was met: calls by kind, refusals by number, branches by name.
use crate::cases::WEIGHTS;
use crate::rules::BOX;
use std::collections::BTreeMap;

#[derive(Default)]
pub struct Tally {
    kinds: BTreeMap<&'static str, [u64; 2]>,
    refusals: BTreeMap<u32, [u64; 2]>,
    branches: BTreeMap<String, u64>,
    // by weight: its low end, its high end, one step past either
    ends: [[bool; 4]; WEIGHTS],
    pub calls: u64,
    pub files: u64,
    pub differences: u64,
}

impl Tally {
    /// A branch that is told of also where it is never met.
    pub fn name(&mut self, name: &str) {
        self.branches.entry(name.to_string()).or_insert(0);
    }

    pub fn branch(&mut self, name: &str) {
        match self.branches.get_mut(name) {
            Some(n) => *n += 1,
            None => {
                self.branches.insert(name.to_string(), 1);
            }
        }
    }

    /// Which ends of the box a call's weights meet.
    pub fn weights(&mut self, w: &[f32]) {
        for ((seen, &x), (low, high)) in self.ends.iter_mut().zip(w).zip(BOX) {
            for (seen, end) in seen.iter_mut().zip([low, high, low.next_down(), high.next_up()]) {
                *seen |= x == end;
            }
        }
    }

    pub fn call(&mut self, kind: &'static str, is_file: bool, refusal: u32) {
        self.kinds.entry(kind).or_default()[(refusal != 0) as usize] += 1;
        self.refusals.entry(refusal).or_default()[is_file as usize] += 1;
        if is_file {
            self.files += 1;
        } else {
            self.calls += 1;
        }
    }

    pub fn branch_names(&self) -> impl Iterator<Item = &String> {
        self.branches.keys()
    }

    pub fn print(&self) {
        println!("{:<60} {:>10} {:>10}", "call", "accepted", "refused");
        for (name, [accepted, refused]) in &self.kinds {
            println!("{name:<60} {accepted:>10} {refused:>10}");
        }
        println!("{:<60} {:>10} {:>10}", "refusal", "calls", "files");
        for (number, [calls, files]) in &self.refusals {
            println!("{number:<60} {calls:>10} {files:>10}");
        }
        println!("{:<60} {:>10}", "branch", "times");
        for (name, n) in &self.branches {
            println!("{name:<60} {n:>10}");
        }
        let met = |places: &[usize]| self.ends.iter().flat_map(|x| places.iter().filter(|&&i| x[i])).count();
        println!("ends of the weights' box met {} of 42, one step past them {} of 42", met(&[0, 1]), met(&[2, 3]));
        println!("calls {}, files {}, differences {}", self.calls, self.files, self.differences);
    }
}
