//! What was called and answered.

use std::collections::BTreeMap;

#[derive(Default)]
pub struct Totals {
    pub calls: u64,
    pub lives: u64,
    bent: u64,
    trusted: u64,
    untold: u64,
    /// By call and number, on the tree itself and on bent lends.
    numbers: BTreeMap<(&'static str, u64), [u64; 2]>,
}

impl Totals {
    pub fn note(&mut self, name: &'static str, number: u64, bent: bool, trusted: bool, untold: bool) {
        self.calls += 1;
        self.bent += bent as u64;
        self.trusted += trusted as u64;
        self.untold += untold as u64;
        self.numbers.entry((name, number)).or_default()[bent as usize] += 1;
    }

    pub fn print(&self) {
        let names = ["open", "get", "floor", "range", "upsert", "remove", "put", "drop", "flush"];
        for name in names {
            let of_name = self.numbers.iter().filter(|((n, _), _)| *n == name);
            let text: Vec<String> = of_name.map(|((_, r), [well, bent])| format!("{r}: {well}+{bent}")).collect();
            println!("{name} {}", text.join(", "));
        }
        let (lives, calls, bent, trusted, untold) = (self.lives, self.calls, self.bent, self.trusted, self.untold);
        println!("{lives} lives, {calls} calls, {bent} on bent lends, {trusted} trusted, {untold} that the reading does not tell");
    }
}
