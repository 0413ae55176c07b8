//! "Hours of the day."

use crate::types::{Clock, Date, Refusal};

fn leap(year: u32) -> bool {
    year.is_multiple_of(4) && (!year.is_multiple_of(100) || year.is_multiple_of(400))
}

fn month_length(year: u32, month: u32) -> u32 {
    match month {
        4 | 6 | 9 | 11 => 30,
        2 if leap(year) => 29,
        2 => 28,
        _ => 31,
    }
}

/// The day of the week, 0 for Sunday, by Zeller's congruence.
fn weekday(date: Date) -> u32 {
    let (year, month) = if date.month < 3 { (date.year - 1, date.month + 12) } else { (date.year, date.month) };
    // Zeller counts from Saturday.
    let from_saturday = (date.day + 13 * (month + 1) / 5 + year + year / 4 - year / 100 + year / 400) % 7;
    (from_saturday + 6) % 7
}

/// The hours of a date: 23 on the last Sunday of March, 25 on that of October, else 24.
pub fn hours(date: Date) -> Result<u32, Refusal> {
    let Date { year, month, day } = date;
    if !(2002..=2099).contains(&year) || !(1..=12).contains(&month) {
        return Err(Refusal::Date);
    }
    if day == 0 || day > month_length(year, month) {
        return Err(Refusal::Date);
    }
    let changes = (month == 3 || month == 10) && day > 31 - 7 && weekday(date) == 0;
    Ok(match (changes, month) {
        (true, 3) => 23,
        (true, _) => 25,
        _ => 24,
    })
}

/// The clock name of an hour of a date.
pub fn clock(date: Date, hour: u32) -> Result<Clock, Refusal> {
    let hours = hours(date)?;
    if hour == 0 || hour > hours {
        return Err(Refusal::Hour);
    }
    let name = match hours {
        23 if hour > 2 => hour,
        25 if hour > 3 => hour - 2,
        _ => hour - 1,
    };
    Ok(Clock { name, second: hours == 25 && hour == 4 })
}

/// The hour of a clock name with its mark.
pub fn hour_named(date: Date, clock: Clock) -> Result<u32, Refusal> {
    let hours = hours(date)?;
    let Clock { name, second } = clock;
    if name > 23 || (hours == 23 && name == 2) || (second && !(hours == 25 && name == 2)) {
        return Err(Refusal::Hour);
    }
    Ok(match hours {
        23 if name > 2 => name,
        25 if name > 2 || second => name + 2,
        _ => name + 1,
    })
}

#[cfg(test)]
mod tests {
    use super::*;

    #[test]
    fn figures_2_and_3() {
        assert_eq!(hours(Date::new(2006, 10, 29)), Ok(25));
        assert_eq!(hours(Date::new(2006, 3, 26)), Ok(23));
        assert_eq!(hours(Date::new(2006, 6, 1)), Ok(24));
        let long = Date::new(2006, 10, 29);
        assert_eq!(clock(long, 3), Ok(Clock { name: 2, second: false }));
        assert_eq!(clock(long, 4), Ok(Clock { name: 2, second: true }));
        assert_eq!(clock(Date::new(2006, 3, 26), 3), Ok(Clock { name: 3, second: false }));
    }

    /// Every date of the range, counted on from 2002-01-01, a Tuesday.
    #[test]
    fn every_date() {
        let (mut weekday, mut short, mut long, mut days) = (2, 0, 0, 0);
        for year in 2002..=2099 {
            for month in 0..=13 {
                let length = match month {
                    1 | 3 | 5 | 7 | 8 | 10 | 12 => 31,
                    4 | 6 | 9 | 11 => 30,
                    2 if year % 4 == 0 => 29,
                    2 => 28,
                    _ => 0,
                };
                assert_eq!(hours(Date::new(year, month, 0)), Err(Refusal::Date));
                assert_eq!(hours(Date::new(year, month, length + 1)), Err(Refusal::Date));
                for day in 1..=length {
                    let last_sunday = weekday == 0 && day + 7 > length;
                    let want = if last_sunday && month == 3 {
                        short += 1;
                        23
                    } else if last_sunday && month == 10 {
                        long += 1;
                        25
                    } else {
                        24
                    };
                    let date = Date::new(year, month, day);
                    assert_eq!(hours(date), Ok(want), "{date}");
                    for hour in 1..=want {
                        assert_eq!(hour_named(date, clock(date, hour).unwrap()), Ok(hour));
                    }
                    weekday = (weekday + 1) % 7;
                    days += 1;
                }
            }
        }
        assert_eq!((short, long, days), (98, 98, 35_794));
    }

    #[test]
    fn names_a_day_lacks() {
        for (date, count) in [((2006, 10, 29), 25), ((2006, 3, 26), 23), ((2006, 6, 1), 24)] {
            let date = Date::new(date.0, date.1, date.2);
            let mut given = Vec::new();
            for name in 0..40 {
                for second in [false, true] {
                    match hour_named(date, Clock { name, second }) {
                        Ok(hour) => {
                            assert_eq!(clock(date, hour), Ok(Clock { name, second }));
                            given.push(hour);
                        }
                        Err(refusal) => assert_eq!(refusal, Refusal::Hour),
                    }
                }
            }
            assert_eq!(given, (1..=count).collect::<Vec<_>>());
            assert_eq!(clock(date, 0), Err(Refusal::Hour));
            assert_eq!(clock(date, count + 1), Err(Refusal::Hour));
        }
    }
}
