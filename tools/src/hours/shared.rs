//! The minutes that two templates share.

use lunthegyr::Window;

/// The windows in which both are sent, in the order of the week.
pub fn windows(first: &[Window], second: &[Window]) -> Vec<Window> {
    let both = |one: &Window, other: &Window| Window {
        start: one.start.max(other.start),
        end: one.end.min(other.end),
    };
    let all = first
        .iter()
        .flat_map(|one| second.iter().map(move |other| both(one, other)));
    all.filter(|window| window.start < window.end).collect()
}

#[cfg(test)]
mod tests {
    use super::*;
    use crate::book::random::Random;
    use lunthegyr::{Book, Hours, WEEK_MINUTES};

    /// Whether each minute of the week is in a window.
    fn minutes(windows: &[Window]) -> Vec<bool> {
        let within = |minute| {
            windows
                .iter()
                .any(|it| (it.start..it.end).contains(&minute))
        };
        (0..WEEK_MINUTES).map(within).collect()
    }

    #[test]
    fn they_are_the_minutes_of_both_and_the_engine_agrees() {
        // Two empty templates, which clash.
        let book = Book::read(*b"TPB\x00\x01\x01A\x02\x00\x00\x00\x00").expect("it is a book");
        let mut random = Random::new();
        let mut listed = [0; 2];
        for _ in 0..500 {
            let templates = [random.windows(), random.windows()];
            let hours = Hours::from_windows(&book, &templates).expect("within the ranges");
            let [first, second] = &templates;
            let shared = windows(first, second);
            let [one, other] = [first, second].map(|windows| minutes(windows));
            let both: Vec<bool> = one.iter().zip(&other).map(|(&a, &b)| a && b).collect();
            assert_eq!(minutes(&shared), both, "{templates:?}");
            assert!(shared.windows(2).all(|two| two[0].end <= two[1].start));
            assert_eq!(hours.clashes().is_empty(), shared.is_empty());
            listed[usize::from(shared.is_empty())] += 1;
        }
        assert!(listed.iter().all(|&times| times > 100), "{listed:?}");
    }
}
