//! Where hours that the engine refuses are at fault, and what is wrong there. Of 43 the engine does not say which of its rules is broken, and of 44 and 45
//! not which window breaks them; a walk through the bytes here finds that. What hours may have is not judged by it: it is asked only of hours that
//! are refused.

use crate::walk::Walk;
use lunthegyr::{Refusal, Window, WEEK_MINUTES, WINDOWS_MOST};

/// What is wrong with hours.
#[derive(Clone, Copy, Debug, PartialEq)]
pub enum Broken {
    /// The mark or the version, or they are not whole.
    Opening,
    /// A template's count of windows.
    Count,
    /// They end where a byte is needed, or go on where none is.
    Missing,
    LeftOver,
    /// A window that has no minute or goes past the week.
    Window(Window),
    /// A window, and the one after it, which starts before that ends.
    Order(Window, Window),
}

impl Broken {
    /// In words.
    pub fn words(self) -> &'static str {
        match self {
            Broken::Opening => {
                "the hours do not start with the three bytes TPH and the version 1 in two bytes"
            }
            Broken::Count => "a template has more than 4 windows",
            Broken::Missing => {
                "the hours end before the windows of all templates of the book have come"
            }
            Broken::LeftOver => {
                "the hours go on after the windows of all templates of the book have come"
            }
            Broken::Window(_) => Refusal::Window.words(),
            Broken::Order(..) => Refusal::WindowOrder.words(),
        }
    }
}

/// A fault: the offset of the byte where it is met, that byte's template, and of a window's fault its number.
#[derive(Debug, PartialEq)]
pub struct Found {
    pub offset: usize,
    pub template: usize,
    pub window: usize,
    pub broken: Broken,
}

/// The mark, and the version in two bytes.
const OPENING: &[u8] = b"TPH\x00\x01";

/// The first fault in hours for a book of so many templates. All of 43 comes first, and then each window.
pub fn first(hours: &[u8], templates: usize) -> Option<Found> {
    let mut walk = Walk::new(hours, Broken::Missing);
    let mut windows = Vec::new();
    match walk.whole(templates, &mut windows) {
        Err(broken) => Some(Found {
            offset: walk.at,
            template: windows.len().saturating_sub(1),
            window: 0,
            broken,
        }),
        Ok(()) => {
            let templates = windows.iter().enumerate();
            let faults = templates.map(|(template, windows)| of_template(template, windows));
            faults.flatten().next()
        }
    }
}

/// The windows of a template, each with its offset.
type Windows = Vec<(usize, Window)>;

impl Walk<'_, Broken> {
    /// All bytes, with the windows of each template. Where a fault is met, those are there up to its template.
    fn whole(&mut self, templates: usize, windows: &mut Vec<Windows>) -> Result<(), Broken> {
        self.opening(OPENING, Broken::Opening)?;
        for _ in 0..templates {
            windows.push(Vec::new());
            for _ in 0..self.count(0, WINDOWS_MOST, Broken::Count)? {
                let row = (self.at, self.window()?);
                windows.last_mut().expect("it was pushed").push(row);
            }
        }
        self.end(Broken::LeftOver)
    }

    fn window(&mut self) -> Result<Window, Broken> {
        let (start, end) = (self.minute()?, self.minute()?);
        Ok(Window { start, end })
    }

    fn minute(&mut self) -> Result<u16, Broken> {
        let mut any = || self.byte(|_| true, Broken::Missing);
        Ok(u16::from_be_bytes([any()?, any()?]))
    }
}

/// The first fault of a template's windows.
fn of_template(template: usize, windows: &Windows) -> Option<Found> {
    let fault = |number: usize, window: Window| {
        let before = number.checked_sub(1).map(|before| windows[before].1);
        let past = window.start >= window.end || window.end > WEEK_MINUTES;
        match before {
            _ if past => Some(Broken::Window(window)),
            Some(before) if before.end > window.start => Some(Broken::Order(before, window)),
            _ => None,
        }
    };
    let rows = windows.iter().enumerate();
    let mut faults = rows.filter_map(|(number, &(offset, window))| {
        fault(number, window).map(|broken| Found {
            offset,
            template,
            window: number,
            broken,
        })
    });
    faults.next()
}

#[cfg(test)]
mod tests {
    use super::*;
    use crate::book::random::Random;
    use lunthegyr::{Book, Hours};

    #[test]
    fn damaged_hours_have_a_fault_just_where_the_engine_refuses_them() {
        let mut random = Random::new();
        let mut refused = [0; 4];
        for _ in 0..4000 {
            let book = Book::read(random.book()).expect("within the ranges");
            let mut hours = random.hours(book.templates());
            for _ in 0..random.below(3) {
                if !hours.is_empty() {
                    random.damage(&mut hours);
                }
            }
            let read = Hours::read(&book, hours.clone());
            let number = read.err().map(Refusal::number);
            let found = first(&hours, book.templates());
            let due = found.as_ref().map(|found| match found.broken {
                Broken::Window(_) => 44,
                Broken::Order(..) => 45,
                _ => 43,
            });
            assert_eq!(due, number, "{hours:?}");
            assert!(found.map_or(true, |found| found.offset <= hours.len()
                && found.template < book.templates()));
            refused[number.map_or(0, |number| usize::from(number) - 42)] += 1;
        }
        assert!(refused.iter().all(|&times| times > 50), "{refused:?}");
    }

    #[test]
    fn a_fault_is_met_at_its_byte() {
        // Two windows, none, and one.
        const HOURS: &[u8] =
            b"TPH\x00\x01\x02\x00\x00\x00\x09\x00\x09\x01\x00\x00\x01\x27\x00\x27\x60";
        assert_eq!(first(HOURS, 3), None);
        let found = |offset, template, window, broken| {
            Some(Found {
                offset,
                template,
                window,
                broken,
            })
        };
        let with = |offset: usize, byte: u8| {
            let mut hours = HOURS.to_vec();
            hours[offset] = byte;
            first(&hours, 3)
        };
        let window = |start, end| Window { start, end };
        assert_eq!(with(0, b'X'), found(0, 0, 0, Broken::Opening));
        assert_eq!(with(4, 2), found(4, 0, 0, Broken::Opening));
        assert_eq!(with(5, 5), found(5, 0, 0, Broken::Count));
        assert_eq!(with(15, 255), found(15, 2, 0, Broken::Count));
        let broken = Broken::Window(window(0, 0));
        assert_eq!(with(9, 0), found(6, 0, 0, broken));
        let broken = Broken::Window(window(0x2700, 0x2761));
        assert_eq!(with(19, 0x61), found(16, 2, 0, broken));
        let broken = Broken::Order(window(0, 10), window(9, 256));
        assert_eq!(with(9, 10), found(10, 0, 1, broken));
        for end in 0..HOURS.len() {
            let broken = if end < 5 {
                Broken::Opening
            } else {
                Broken::Missing
            };
            let cut = first(&HOURS[..end], 3).expect("a byte is missing");
            assert_eq!((cut.offset, cut.broken), (end, broken));
        }
        assert_eq!(first(HOURS, 2), found(15, 1, 0, Broken::LeftOver));
        assert_eq!(first(HOURS, 4), found(20, 3, 0, Broken::Missing));
    }
}
