//! Accepted hours of a book's templates, and which clashing templates share a minute by them.

use crate::answers::{listed, Clashing};
use crate::{calls, Book, Refusal};

/// The mark, and the version in two bytes.
const OPENING: &[u8] = b"TPH\x00\x01";

/// A window's bytes: two for its start, and two for its end.
const WINDOW_BYTES: usize = 4;

/// Some minutes of the week in a row, counted from Monday 00:00.
#[derive(Clone, Copy, Debug, PartialEq, Eq, Hash)]
pub struct Window {
    /// The first minute.
    pub start: u16,
    /// The minute after the last, at most [`WEEK_MINUTES`](crate::WEEK_MINUTES).
    pub end: u16,
}

/// The bytes of hours that the engine accepts for a book, and its answer: which of the book's clashing templates share a minute.
///
/// They have the windows of each template of the book, at most [`WINDOWS_MOST`](crate::WINDOWS_MOST) of one. A template is sent in its windows and at no other time;
/// without a window it is never sent. None starts before the preceding one of its template ends. A window across Sunday midnight is two. The
/// repository's `docs/02-change-requests.md`, No. 6, defines the bytes.
#[derive(Clone, Debug, PartialEq, Eq, Hash)]
pub struct Hours {
    bytes: Vec<u8>,
    /// Those of each template.
    windows: Vec<Vec<Window>>,
    clashes: Vec<Clashing>,
}

impl Hours {
    /// Reads hours of any bytes for a book, and asks which of its templates clash and share a minute; the engine has one call for both. Refusals: 43
    /// to 45.
    ///
    /// ```
    /// use lunthegyr::{Book, Hours, Refusal, Window};
    ///
    /// // One letter, A; two templates, A and A, which clash.
    /// let book = Book::read(*b"TPB\x00\x01\x01A\x02\x00\x01\x00\x00\x01\x00")?;
    /// // The first is sent from minute 0 to minute 256, the second from minute 256 to minute 512.
    /// let hours = Hours::read(&book, *b"TPH\x00\x01\x01\x00\x00\x01\x00\x01\x01\x00\x02\x00")?;
    /// assert_eq!(hours.windows(1), [Window { start: 256, end: 512 }]);
    /// assert!(hours.clashes().is_empty());
    /// assert_eq!(Hours::read(&book, *b"TPH\x00\x01").map_err(|refusal| refusal.number()), Err(43));
    /// # Ok::<(), Refusal>(())
    /// ```
    pub fn read(book: &Book, bytes: impl Into<Vec<u8>>) -> Result<Hours, Refusal> {
        let bytes = bytes.into();
        let clashes = listed(|list| calls::book_hours(book.bytes(), &bytes, list))?;
        Ok(Hours {
            windows: windows(&bytes),
            bytes,
            clashes,
        })
    }

    /// The hours that give each template of a book these windows, in the order of the book. Refusals: 43 to 45; 43 also where there are not as
    /// many templates as the book has.
    ///
    /// ```
    /// use lunthegyr::{Book, Hours, Refusal, Window};
    ///
    /// let book = Book::read(*b"TPB\x00\x01\x01A\x02\x00\x01\x00\x00\x01\x00")?;
    /// let morning = Window { start: 540, end: 720 };
    /// let late = Window { start: 720, end: 1050 };
    /// let hours = Hours::from_windows(&book, &[vec![morning, late], vec![]])?;
    /// assert_eq!(hours.bytes(), b"TPH\x00\x01\x02\x02\x1C\x02\xD0\x02\xD0\x04\x1A\x00");
    /// let turned = Hours::from_windows(&book, &[vec![late, morning], vec![]]);
    /// assert_eq!(turned, Err(Refusal::WindowOrder));
    /// # Ok::<(), Refusal>(())
    /// ```
    pub fn from_windows<W: AsRef<[Window]>>(
        book: &Book,
        templates: &[W],
    ) -> Result<Hours, Refusal> {
        Hours::read(book, Hours::bytes_of(templates))
    }

    /// The bytes that give templates these windows, in the order of a book. It may be any windows: whether they are hours, and of which book, is judged
    /// where the bytes are read. A count that no byte holds is written as 255, which is refused like it.
    pub fn bytes_of<W: AsRef<[Window]>>(templates: &[W]) -> Vec<u8> {
        let mut bytes = OPENING.to_vec();
        for windows in templates.iter().map(AsRef::as_ref) {
            bytes.push(windows.len().min(255) as u8);
            for window in windows {
                bytes.extend(window.start.to_be_bytes());
                bytes.extend(window.end.to_be_bytes());
            }
        }
        bytes
    }

    /// Their bytes.
    pub fn bytes(&self) -> &[u8] {
        &self.bytes
    }

    /// The windows of a template, which count from 0, in the order of the week.
    ///
    /// # Panics
    ///
    /// Where `template` is not below the number of the book's [`templates`](Book::templates).
    pub fn windows(&self, template: usize) -> &[Window] {
        &self.windows[template]
    }

    /// The pairs of templates that clash and share a minute, all of them and no others: of the book's [`clashes`](Book::clashes) those with a
    /// minute that is in a window of the first and in a window of the second. The others CAN spell the same text, and are only never sent
    /// in the same minute.
    pub fn clashes(&self) -> &[Clashing] {
        &self.clashes
    }
}

/// The windows of each template in accepted bytes.
fn windows(bytes: &[u8]) -> Vec<Vec<Window>> {
    let mut rest = &bytes[OPENING.len()..];
    let mut templates = Vec::new();
    while let Some((&count, after)) = rest.split_first() {
        let (windows, after) = after.split_at(usize::from(count) * WINDOW_BYTES);
        templates.push(windows.chunks(WINDOW_BYTES).map(window).collect());
        rest = after;
    }
    templates
}

fn window(bytes: &[u8]) -> Window {
    let minute = |at: usize| u16::from_be_bytes([bytes[at], bytes[at + 1]]);
    Window {
        start: minute(0),
        end: minute(2),
    }
}

#[cfg(test)]
mod tests {
    use super::*;
    use crate::samples::{BOOK, HOURS};
    use crate::{HOURS_MOST, TEMPLATES_MOST, WEEK_MINUTES, WINDOWS_MOST};

    /// A book of so many templates, all empty, so that any two clash.
    fn alike(templates: usize) -> Book {
        let mut bytes = b"TPB\x00\x01\x01A".to_vec();
        bytes.push(templates as u8);
        bytes.extend(vec![0; 2 * templates]);
        Book::read(bytes).unwrap()
    }

    fn window(start: u16, end: u16) -> Window {
        Window { start, end }
    }

    /// Whether two templates that clash share a minute by these windows.
    fn share(first: &[Window], second: &[Window]) -> Result<bool, Refusal> {
        let hours = Hours::from_windows(&alike(2), &[first, second])?;
        Ok(!hours.clashes().is_empty())
    }

    #[test]
    fn accepted_hours_keep_their_bytes_and_windows() {
        let book = Book::read(BOOK).unwrap();
        let hours = Hours::read(&book, HOURS).unwrap();
        assert_eq!(hours.bytes(), HOURS);
        let due: [&[Window]; 4] = [
            &[window(0, 60), window(60, 120)],
            &[window(120, 180)],
            &[],
            &[window(150, WEEK_MINUTES)],
        ];
        for (template, windows) in due.into_iter().enumerate() {
            assert_eq!(hours.windows(template), windows);
        }
        assert_eq!(Hours::from_windows(&book, &due), Ok(hours));
    }

    #[test]
    fn of_the_clashes_those_are_listed_that_share_a_minute() {
        let book = Book::read(BOOK).unwrap();
        assert_eq!(book.clashes().len(), 2);
        let hours = Hours::read(&book, HOURS).unwrap();
        let due = [Clashing {
            first: 1,
            second: 3,
        }];
        assert_eq!(hours.clashes(), due);
        // At all times all clashes are.
        let week = [[window(0, WEEK_MINUTES)]; 4];
        let hours = Hours::from_windows(&book, &week).unwrap();
        assert_eq!(hours.clashes(), book.clashes());
    }

    #[test]
    fn a_minute_is_shared_where_windows_overlap() {
        let noon = window(700, 720);
        assert_eq!(share(&[noon], &[noon]), Ok(true));
        assert_eq!(share(&[noon], &[window(719, 800)]), Ok(true));
        assert_eq!(share(&[noon], &[window(0, 701)]), Ok(true));
        assert_eq!(share(&[noon], &[window(705, 706)]), Ok(true));
        assert_eq!(share(&[noon], &[window(720, 800)]), Ok(false));
        assert_eq!(share(&[noon], &[window(0, 700)]), Ok(false));
        let around = [window(0, 700), window(720, WEEK_MINUTES)];
        assert_eq!(share(&[noon], &around), Ok(false));
        assert_eq!(share(&[noon, window(10_000, 10_001)], &around), Ok(true));
        assert_eq!(share(&[noon], &[]), Ok(false));
    }

    #[test]
    fn a_window_at_fault_is_refused() {
        let refused = |windows: &[Window]| share(windows, &[]);
        assert_eq!(refused(&[window(5, 5)]), Err(Refusal::Window));
        assert_eq!(refused(&[window(6, 5)]), Err(Refusal::Window));
        assert_eq!(refused(&[window(0, 10_081)]), Err(Refusal::Window));
        assert_eq!(refused(&[window(10_079, 10_080)]), Ok(false));
        let overlap = [window(0, 60), window(59, 70)];
        assert_eq!(refused(&overlap), Err(Refusal::WindowOrder));
        let turned = [window(60, 70), window(0, 60)];
        assert_eq!(refused(&turned), Err(Refusal::WindowOrder));
        // Windows are told one after the other, and of each one 44 before 45.
        let both = [window(60, 70), window(50, 40)];
        assert_eq!(refused(&both), Err(Refusal::Window));
        let then = [window(0, 60), window(50, 70), window(5, 5)];
        assert_eq!(refused(&then), Err(Refusal::WindowOrder));
    }

    #[test]
    fn the_largest_hours_are_accepted_and_a_window_more_is_not() {
        let some = |count: u16| -> Vec<Window> {
            (0..count)
                .map(|hour| window(60 * hour, 60 * (hour + 1)))
                .collect()
        };
        let book = alike(TEMPLATES_MOST);
        let mut templates = vec![some(WINDOWS_MOST as u16); TEMPLATES_MOST];
        let hours = Hours::from_windows(&book, &templates).unwrap();
        assert_eq!(hours.bytes().len(), HOURS_MOST);
        assert_eq!(hours.clashes(), book.clashes());
        for count in [WINDOWS_MOST as u16 + 1, 150] {
            templates[15] = some(count);
            let refused = Hours::from_windows(&book, &templates);
            assert_eq!(refused, Err(Refusal::HoursFault));
        }
        // 256 windows are not read as none.
        templates[15] = (0..256).map(|minute| window(minute, minute + 1)).collect();
        let refused = Hours::from_windows(&book, &templates);
        assert_eq!(refused, Err(Refusal::HoursFault));
    }

    #[test]
    fn hours_of_another_book_are_refused() {
        let hours = vec![vec![window(0, 60)]; 3];
        for templates in [1, 2, 4, 16] {
            let refused = Hours::from_windows(&alike(templates), &hours);
            assert_eq!(refused, Err(Refusal::HoursFault), "{templates}");
        }
        assert!(Hours::from_windows(&alike(3), &hours).is_ok());
    }

    #[test]
    #[should_panic]
    fn a_template_that_is_not_there_has_no_windows() {
        let hours = Hours::read(&Book::read(BOOK).unwrap(), HOURS).unwrap();
        hours.windows(4);
    }
}
