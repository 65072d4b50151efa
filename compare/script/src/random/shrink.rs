//! The shortest part of a list that still does what it did.

/// Leaves out calls, long runs of them first, as long as it still differs.
pub fn shrunk<T: Clone>(mut list: Vec<T>, mut differs: impl FnMut(&[T]) -> bool) -> Vec<T> {
    let mut run = list.len().div_ceil(2);
    while run > 0 {
        let mut at = 0;
        let before = list.len();
        while at < list.len() {
            let end = (at + run).min(list.len());
            let shorter = [&list[..at], &list[end..]].concat();
            if differs(&shorter) {
                list = shorter;
            } else {
                at = end;
            }
        }
        // Single calls are tried again until all are needed.
        if run > 1 || list.len() == before {
            run /= 2;
        }
    }
    list
}

#[cfg(test)]
mod tests {
    use super::*;

    #[test]
    fn what_is_needed_stays() {
        let list: Vec<_> = (0..100).collect();
        let needed = [3, 50, 51, 99];
        let differs = |list: &[i32]| needed.iter().all(|number| list.contains(number));
        assert_eq!(shrunk(list, differs), needed);
    }

    /// 5 is needed only as long as 70 is there.
    #[test]
    fn what_was_needed_before_goes() {
        let list: Vec<_> = (0..100).collect();
        let differs =
            |list: &[i32]| list.contains(&1) && (list.contains(&5) || !list.contains(&70));
        assert_eq!(shrunk(list, differs), [1]);
    }
}
