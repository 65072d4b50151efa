//! Document 01's refusals, told from the texts of the Rust's errors.

use engine::error::SQLRiteError;

/// The answer to what was refused.
pub fn answer(error: &SQLRiteError, parts: &[(&str, u32)]) -> String {
    format!("refused {}", number(error, parts))
}

/// The number beside the one part that the error's text has.
pub fn number(error: &SQLRiteError, parts: &[(&str, u32)]) -> u32 {
    let text = error.to_string();
    let found: Vec<_> = parts
        .iter()
        .filter(|(part, _)| text.contains(part))
        .map(|(_, number)| *number)
        .collect();
    match found[..] {
        [number] => number,
        _ => panic!("no number, or several, for: {text}"),
    }
}

#[cfg(test)]
mod tests {
    use super::*;

    #[test]
    fn the_part_decides() {
        let error = SQLRiteError::General("short, or cut".to_string());
        assert_eq!(answer(&error, &[("long", 1), ("cut", 2)]), "refused 2");
    }

    #[test]
    #[should_panic(expected = "no number, or several")]
    fn two_parts_decide_nothing() {
        let error = SQLRiteError::General("short, or cut".to_string());
        answer(&error, &[("short", 1), ("cut", 2)]);
    }
}
