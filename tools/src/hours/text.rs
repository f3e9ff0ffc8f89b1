//! Writes hours in the text form, so that reading them gives the same bytes; and for people.

use super::week::{self, WEEK};
use lunthegyr::{Hours, Window};

/// The lines of hours, one for each template of these names. None is left out, also where a template may be sent at any time: a book whose templates
/// all may be has hours too.
pub fn lines(hours: &Hours, names: &[&str]) -> String {
    let line = |(number, name)| {
        let windows = written(hours.windows(number)).join(", ");
        format!("{}\n", format!("hours {name} {windows}").trim_end())
    };
    names.iter().enumerate().map(line).collect()
}

/// Each window.
fn written(windows: &[Window]) -> Vec<String> {
    windows.iter().copied().map(week::written).collect()
}

/// When a template is sent, after these words. Where the windows have no room in a line they go on below.
pub fn sent(words: &str, windows: &[Window], most: usize) -> Vec<String> {
    let windows = match windows {
        [] => vec!["never".to_string()],
        [WEEK] => vec!["at any time".to_string()],
        _ => written(windows),
    };
    let mut lines = vec![words.to_string()];
    let last = windows.len() - 1;
    for (number, window) in windows.into_iter().enumerate() {
        let window = if number < last { window + "," } else { window };
        let line = lines.last_mut().expect("a line is there");
        if line.len() + 1 + window.len() > most {
            lines.push(format!("{:wide$} {window}", "", wide = words.len()));
        } else {
            *line += " ";
            *line += &window;
        }
    }
    lines
}

#[cfg(test)]
mod tests {
    use super::super::input;
    use super::*;
    use crate::book::{form::Form, parse, random::Random};
    use lunthegyr::Book;

    #[test]
    fn random_hours_come_back_from_their_text() {
        let mut random = Random::new();
        let (mut never, mut several) = (0, 0);
        for _ in 0..1000 {
            let book = Book::read(random.book()).expect("within the ranges");
            let hours = random.hours(book.templates());
            let hours = Hours::read(&book, hours).expect("within the ranges");
            let form = Form::of_accepted(&book);
            let text = form.text() + &lines(&hours, &form.names());
            let read =
                parse::parse(&text).unwrap_or_else(|fault| panic!("{}: {text}", fault.message));
            assert_eq!(read.form.book(), book.bytes());
            let read = read.hours.expect("each template has a line");
            let again = input::of_text(&read, &book, &form);
            assert_eq!(again.expect("they were accepted"), hours, "{text}");
            for number in 0..book.templates() {
                never += usize::from(hours.windows(number).is_empty());
                several += usize::from(hours.windows(number).len() > 1);
            }
        }
        assert!(never > 1000 && several > 1000, "{never} {several}");
    }

    #[test]
    fn windows_go_on_below_where_there_is_no_room() {
        let window = |start: u16| Window {
            start: 60 * start,
            end: 60 * start + 30,
        };
        let sent = |windows: &[Window], most| sent("sent", windows, most);
        assert_eq!(sent(&[], 40), ["sent never"]);
        assert_eq!(sent(&[WEEK], 4), ["sent", "     at any time"]);
        let windows = [window(0), window(30), window(167)];
        let due = [
            "sent Mon 00:00-00:30, Tue 06:00-06:30,",
            "     Sun 23:00-23:30",
        ];
        assert_eq!(sent(&windows, 38), due);
        assert_eq!(sent(&windows, 36).len(), 3);
        assert_eq!(sent(&windows, 200).len(), 1);
    }
}
