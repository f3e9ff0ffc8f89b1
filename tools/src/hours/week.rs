//! Windows of the week as people write them: `Mon 09:00-17:30`. It knows nothing of books.

use crate::line::{fault_at, Line};
use crate::source::Fault;
use lunthegyr::{Window, WEEK_MINUTES};

const DAYS: [&str; 7] = ["Mon", "Tue", "Wed", "Thu", "Fri", "Sat", "Sun"];
const DAY_MINUTES: u16 = 24 * 60;

/// All minutes of the week.
pub const WEEK: Window = Window {
    start: 0,
    end: WEEK_MINUTES,
};

/// A window with a minute or more, all of the week. The day of its end is written where it is not that of its start.
pub fn written(window: Window) -> String {
    let [first, last] = [window.start, window.end - 1].map(|minute| minute / DAY_MINUTES);
    let start = clock(window.start - first * DAY_MINUTES);
    let end = clock(window.end - last * DAY_MINUTES);
    let [from, to] = [first, last].map(|day| DAYS[usize::from(day)]);
    match first == last {
        true => format!("{from} {start}-{end}"),
        false => format!("{from} {start}-{to} {end}"),
    }
}

/// A time of the day, up to 24:00.
fn clock(minutes: u16) -> String {
    format!("{:02}:{:02}", minutes / 60, minutes % 60)
}

/// Reads a window: `Mon 09:00-17:30`, `Mon 22:00-06:00` or `Fri 18:00-Mon 08:00`. It ends where the time of its end first comes, on any day if none is
/// given. Across Sunday midnight it is two windows.
pub fn read(line: &mut Line) -> Result<Vec<Window>, Fault> {
    line.peek();
    let place = line.place();
    let day = DAY_MINUTES * read_day(line)?;
    if line.peek() == Some('-') {
        return line.fault("a window starts on one day and at a time, as in `Mon 09:00-17:30`; several days are several windows, of which a template has at most 4");
    }
    let time = read_clock(line)?;
    line.expect('-', "between the start and the end of a window")?;
    let (end, again) = match line.peek() {
        Some(next) if next.is_ascii_alphabetic() => {
            let day = DAY_MINUTES * read_day(line)?;
            (day + read_clock(line)?, WEEK_MINUTES)
        }
        _ => (day + read_clock(line)?, DAY_MINUTES),
    };
    let start = day + time;
    if time == DAY_MINUTES {
        return fault_at(
            place,
            "24:00 is the end of a day: a window that starts then starts at 00:00 of the next",
        );
    }
    if start == end {
        return fault_at(place, "this starts and ends in the same minute: a whole day is `Mon 00:00-24:00`, and the whole week `Mon 00:00-Sun 24:00`");
    }
    let end = if end < start { end + again } else { end };
    Ok(of_the_week(start, end))
}

/// The windows from a minute to one that may be in the next week.
fn of_the_week(start: u16, end: u16) -> Vec<Window> {
    match end.checked_sub(WEEK_MINUTES) {
        None | Some(0) => vec![Window { start, end }],
        Some(end) => vec![
            Window {
                start,
                end: WEEK_MINUTES,
            },
            Window { start: 0, end },
        ],
    }
}

/// Reads a day, which counts from 0.
fn read_day(line: &mut Line) -> Result<u16, Fault> {
    const WORDS: &str = "Mon, Tue, Wed, Thu, Fri, Sat or Sun";
    line.peek();
    let place = line.place();
    let word = line.word();
    if word.is_empty() {
        return line.expected(&format!("a day ({WORDS})"));
    }
    match DAYS.iter().position(|day| *day == word) {
        Some(number) => Ok(number as u16),
        None => fault_at(place, format!("`{word}` is no day: write {WORDS}")),
    }
}

/// Reads a time of the day, up to 24:00, as minutes.
fn read_clock(line: &mut Line) -> Result<u16, Fault> {
    line.peek();
    let place = line.place();
    let hour = line.digits();
    if hour.is_empty() {
        return line.expected("a time such as 09:00");
    }
    line.expect(':', "between hour and minute")?;
    let minute = line.digits();
    match minutes(&hour, &minute) {
        Some(minutes) => Ok(minutes),
        None => fault_at(place, format!("`{hour}:{minute}` is no time of the day: it is written as 09:00, and goes from 00:00 to 23:59, or to 24:00 where a window ends")),
    }
}

/// The minutes of an hour of one or two digits and a minute of two.
fn minutes(hour: &str, minute: &str) -> Option<u16> {
    if hour.len() > 2 || minute.len() != 2 {
        return None;
    }
    let (hour, minute): (u16, u16) = (hour.parse().ok()?, minute.parse().ok()?);
    let minutes = 60 * hour + minute;
    Some(minutes).filter(|&minutes| minute < 60 && minutes <= DAY_MINUTES)
}

#[cfg(test)]
mod tests {
    use super::*;
    use crate::book::random::Random;

    fn windows(text: &str) -> Result<Vec<(u16, u16)>, Fault> {
        let windows = read(&mut Line::new(text, 1))?.into_iter();
        Ok(windows.map(|window| (window.start, window.end)).collect())
    }

    #[test]
    fn windows_come_back_from_their_text() {
        let mut random = Random::new();
        let mut days = [0; 7];
        for _ in 0..20_000 {
            let start = random.below(10_080) as u16;
            let end = start + 1 + random.below(10_080 - usize::from(start)) as u16;
            let text = written(Window { start, end });
            assert_eq!(windows(&text).unwrap(), [(start, end)], "{text}");
            days[text.matches(|c: char| c.is_ascii_uppercase()).count() - 1] += 1;
        }
        assert!(days[0] > 1000 && days[1] > 1000, "{days:?}");
    }

    #[test]
    fn a_window_is_written_with_the_day_of_its_last_minute() {
        let text = |start, end| written(Window { start, end });
        assert_eq!(text(0, 1), "Mon 00:00-00:01");
        assert_eq!(text(540, 1050), "Mon 09:00-17:30");
        assert_eq!(text(540, 1440), "Mon 09:00-24:00");
        assert_eq!(text(540, 1441), "Mon 09:00-Tue 00:01");
        assert_eq!(text(1320, 1800), "Mon 22:00-Tue 06:00");
        assert_eq!(text(1440, 2880), "Tue 00:00-24:00");
        assert_eq!(text(8640, 10_080), "Sun 00:00-24:00");
        assert_eq!(written(WEEK), "Mon 00:00-Sun 24:00");
    }

    #[test]
    fn a_window_ends_where_its_end_first_comes() {
        let due = |text: &str, due: &[(u16, u16)]| assert_eq!(windows(text).unwrap(), due);
        due("Mon 09:00-17:30", &[(540, 1050)]);
        due("Mon 9:00 - 17:30", &[(540, 1050)]);
        due("Sat 10:00-24:00", &[(7800, 8640)]);
        due("Mon 22:00-06:00", &[(1320, 1800)]);
        due("Mon 22:00-00:00", &[(1320, 1440)]);
        due("Mon 22:00-Tue 06:00", &[(1320, 1800)]);
        due("Mon 09:00-Thu 08:00", &[(540, 4800)]);
        due("Mon 00:00-Mon 24:00", &[(0, 1440)]);
        due("Mon 09:00-Tue 09:00", &[(540, 1980)]);
    }

    #[test]
    fn a_window_across_sunday_midnight_is_two() {
        let due = |text: &str, due: &[(u16, u16)]| assert_eq!(windows(text).unwrap(), due);
        due("Sun 22:00-06:00", &[(9960, 10_080), (0, 360)]);
        due("Fri 18:00-Mon 08:00", &[(6840, 10_080), (0, 480)]);
        due("Mon 09:00-Mon 08:00", &[(540, 10_080), (0, 480)]);
        // These end there.
        due("Sun 22:00-24:00", &[(9960, 10_080)]);
        due("Sun 22:00-00:00", &[(9960, 10_080)]);
        due("Fri 18:00-Mon 00:00", &[(6840, 10_080)]);
        due("Mon 00:00-Sun 24:00", &[(0, 10_080)]);
        due("Sun 00:00-24:00", &[(8640, 10_080)]);
    }
}
