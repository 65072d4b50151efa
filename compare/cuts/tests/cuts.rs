//! A short run of cuts, and that each wrong model, order of writes, opening, clock, counting and
//! preview is found.
use cuts::run::run;
use cuts::wrong::{ALL, Wrong};

#[test]
fn no_cut_is_different() {
    match run(7, 40_000, Wrong::Not) {
        Ok(tally) => {
            assert_eq!(tally.cuts, 40_000);
            assert!(tally.promised >= 200, "{}", tally.promised);
        }
        Err(found) => panic!("{}", found.what),
    }
}

#[test]
fn every_wrong_one_is_found() {
    for (name, wrong) in ALL {
        let found = run(7, 60_000, wrong).err();
        let found = found.unwrap_or_else(|| panic!("{name} isn't found"));
        println!("{name}: at cut {}, {}", found.cuts, found.what);
    }
}
