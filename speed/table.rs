//! What the measuring programs with several sides share: the rows that are asked for, and sides that take turns.
use crate::timing::{clock, median};

/// The table's rows, as they are measured.
pub struct Table {
    rounds: usize,
    word: String,
}

impl Table {
    /// The table that the program's arguments ask for.
    pub fn asked() -> Table {
        let args: Vec<String> = std::env::args().collect();
        let rounds = args
            .get(1)
            .map_or(201, |n| n.parse().expect("ROUNDS is a number"));
        Table {
            rounds,
            word: args.get(2).cloned().unwrap_or_default(),
        }
    }

    pub fn wants(&self, name: &str) -> bool {
        name.contains(&self.word)
    }

    /// The medians of all sides, one after another in every round; they take turns in being first. `times` calls are made between two readings of
    /// the clock.
    pub fn medians(&self, times: usize, sides: &mut [&mut dyn FnMut()]) -> Vec<f64> {
        let mut ns = vec![vec![]; sides.len()];
        for round in 0..self.rounds {
            for k in 0..sides.len() {
                let i = (round + k) % sides.len();
                ns[i].push(clock(times, &mut *sides[i]));
            }
        }
        ns.into_iter().map(median).collect()
    }
}
