//! Times the pager's calls, the Rust's and the port's, in memory and in files
//! on a file system in memory. `bench_store [ROUNDS] [GROUP]...`

mod files;
mod port;
mod rows;
mod rust;
mod side;
#[cfg(feature = "sqlite")]
mod sqlite;
mod table;
mod timing;

use std::env;
use std::thread;

use table::Table;

/// How many samples of each are taken, unless the first argument says so.
const ROUNDS: usize = 201;

fn main() {
    let mut words: Vec<String> = env::args().skip(1).collect();
    let rounds = match words.first().map(|word| word.parse()) {
        Some(Ok(rounds)) => {
            words.remove(0);
            rounds
        }
        _ => ROUNDS,
    };
    let cores = thread::available_parallelism().map_or(0, usize::from);
    println!("{cores} cores; medians of {rounds} samples, in turns");
    for (name, columns, group) in rows::GROUPS {
        if words.is_empty() || words.iter().any(|word| word == name) {
            group(&Table::new(rounds, name, columns));
        }
    }
}

#[cfg(test)]
mod tests {
    use super::*;

    /// Every row asserts that the two agree before it times them.
    #[test]
    fn every_row_agrees() {
        for (name, columns, group) in rows::GROUPS {
            group(&Table::new(1, name, columns));
        }
    }
}
