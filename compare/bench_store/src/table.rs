//! A table of times, each row printed when it is taken.

use crate::timing::{Sampler, in_turns};

/// The rows of one group.
pub struct Table {
    rounds: usize,
}

impl Table {
    /// Begins a table with its heading.
    pub fn new(rounds: usize, group: &str, columns: [&str; 4]) -> Self {
        println!("\n| {group} | {} |", columns.join(" | "));
        println!("|---|---|---|---|---|");
        Self { rounds }
    }

    /// Times the two, and what is to be named beside them, with the port's
    /// ratio to it.
    pub fn row(&self, what: &str, rust: Sampler, port: Sampler, beside: Option<(&str, Sampler)>) {
        let (name, third) = beside.unzip();
        let samplers = [rust, port].into_iter().chain(third).collect();
        let times = in_turns(self.rounds, samplers);
        let (rust, port) = (times[0], times[1]);
        let beside = name.map_or(String::new(), |name| {
            let third = times[2];
            format!("{name} {}: {:.2}", time(third), port / third)
        });
        println!(
            "| {what} | {} | {} | {:.2} | {beside} |",
            time(rust),
            time(port),
            port / rust
        );
    }

    /// Times a whole and two parts of it: its own cost beside either.
    pub fn own_cost(&self, what: &str, whole: Sampler, part: Sampler, larger: Sampler) {
        let times = in_turns(self.rounds, vec![whole, part, larger]);
        let [whole, part, larger] = [0, 1, 2].map(|i| times[i]);
        let percent = |part: f64| 100.0 * (whole - part) / part;
        println!(
            "| {what} | {} | {} | {:.1} % | {}: {:.1} % |",
            time(whole),
            time(part),
            percent(part),
            time(larger),
            percent(larger)
        );
    }
}

/// Nanoseconds, in a unit that suits.
fn time(nanoseconds: f64) -> String {
    if nanoseconds < 10_000.0 {
        format!("{nanoseconds:.1} ns")
    } else {
        format!("{:.1} µs", nanoseconds / 1_000.0)
    }
}
