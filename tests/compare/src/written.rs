//! Timestamps as a case writes them: the kind, then its one or two moments. What a moment doesn't
//! name is 0.

use plain_reader::{MomentNumbers, StampNumbers, NO_MOMENT, NO_STAMP};

use crate::case::number;

/// The keywords of a planning line, in the order of the answer.
const KEYWORDS: [&str; 3] = ["closed", "deadline", "scheduled"];

/// The marks of repeaters and of delays, counted from 1.
const REPEAT_MARKS: [&str; 3] = ["+", "++", ".+"];
const DELAY_MARKS: [&str; 2] = ["-", "--"];

/// The places of a moment's numbers; its date stands first.
const HAS_TIME: usize = 3;
const REPEAT_MARK: usize = 6;
const WITHIN: usize = 9;
const DELAY_MARK: usize = 11;
const DELAY_FIRST: usize = 14;

/// `KEYWORD STAMP; KEYWORD STAMP; ..`: the stamp of each keyword, none for what is not named.
pub fn plan(line: &str) -> Result<[StampNumbers; 3], String> {
    let mut stamps = [NO_STAMP; 3];
    for part in line.split("; ") {
        let (keyword, written) = part.split_once(' ').ok_or("KEYWORD STAMP")?;
        let place = KEYWORDS.iter().position(|word| *word == keyword);
        let place = place.ok_or(format!("{keyword:?} is no keyword"))?;
        if stamps[place] != NO_STAMP {
            return Err(format!("{keyword} twice"));
        }
        stamps[place] = stamp(written)?;
    }
    Ok(stamps)
}

/// `KIND, MOMENT` or `KIND, MOMENT, MOMENT`.
pub fn stamp(line: &str) -> Result<StampNumbers, String> {
    let mut parts = line.split(", ");
    let kind: u32 = number(parts.next().unwrap_or_default())?;
    let first = moment(parts.next().ok_or("KIND, MOMENT")?)?;
    let second = parts.next().map_or(Ok(NO_MOMENT), moment)?;
    let moments = if matches!(kind, 1 | 4) { 1 } else { 2 };
    if !(1..=6).contains(&kind) || line.split(", ").count() != 1 + moments {
        return Err(format!("{line:?} is no stamp"));
    }
    let mut numbers = NO_STAMP;
    numbers[0] = kind;
    numbers[1..16].copy_from_slice(&first);
    numbers[16..].copy_from_slice(&second);
    Ok(numbers)
}

/// `YEAR MONTH DAY`, then `time HOUR MINUTE`, `repeat MARK NUMBER UNIT`, `within NUMBER UNIT` and
/// `delay MARK NUMBER UNIT`, those that there are, in the text's order.
fn moment(line: &str) -> Result<MomentNumbers, String> {
    let mut words = line.split(' ');
    let mut next = || words.next().ok_or(format!("{line:?} is cut short"));
    let mut moment = NO_MOMENT;
    for place in &mut moment[..HAS_TIME] {
        *place = number(next()?)?;
    }
    while let Ok(word) = next() {
        match word {
            "time" => {
                let time = [1, number(next()?)?, number(next()?)?];
                moment[HAS_TIME..REPEAT_MARK].copy_from_slice(&time);
            }
            "repeat" => {
                let every = [
                    mark(next()?, &REPEAT_MARKS)?,
                    number(next()?)?,
                    unit(next()?)?,
                ];
                moment[REPEAT_MARK..WITHIN].copy_from_slice(&every);
                moment[DELAY_FIRST] = u32::from(moment[DELAY_MARK] != 0);
            }
            "within" => {
                let within = [number(next()?)?, unit(next()?)?];
                moment[WITHIN..DELAY_MARK].copy_from_slice(&within);
            }
            "delay" => {
                let delay = [
                    mark(next()?, &DELAY_MARKS)?,
                    number(next()?)?,
                    unit(next()?)?,
                ];
                moment[DELAY_MARK..DELAY_FIRST].copy_from_slice(&delay);
            }
            _ => return Err(format!("{word:?} is no part of a moment")),
        }
    }
    Ok(moment)
}

fn mark(word: &str, marks: &[&str]) -> Result<u32, String> {
    let place = marks.iter().position(|mark| *mark == word);
    place.map_or(Err(format!("{word:?} is no mark")), |place| {
        Ok(place as u32 + 1)
    })
}

/// A unit is its small letter.
fn unit(word: &str) -> Result<u32, String> {
    match word.as_bytes() {
        [letter @ b'a'..=b'z'] => Ok(u32::from(*letter)),
        _ => Err(format!("{word:?} is no small letter")),
    }
}

#[cfg(test)]
mod tests {
    use super::*;

    #[test]
    fn every_part_has_its_place() {
        let line = "2, 1 2 3 time 4 5 repeat .+ 6 y within 7 h delay -- 8 m, 9 10 11 time 12 13";
        let expected = [
            2, 1, 2, 3, 1, 4, 5, 3, 6, 121, 7, 104, 2, 8, 109, 0, 9, 10, 11, 1, 12, 13, 0, 0, 0, 0,
            0, 0, 0, 0, 0,
        ];
        assert_eq!(stamp(line), Ok(expected));
    }

    #[test]
    fn the_order_of_repeater_and_delay_counts() {
        let repeater_first = stamp("1, 1 2 3 repeat + 1 d delay - 1 d").unwrap();
        let delay_first = stamp("1, 1 2 3 delay - 1 d repeat + 1 d").unwrap();
        assert_eq!((repeater_first[15], delay_first[15]), (0, 1));
        assert_eq!(repeater_first[..15], delay_first[..15]);
    }

    #[test]
    fn what_is_no_stamp_is_refused() {
        for line in [
            "",
            "1",
            "0, 1 2 3",
            "7, 1 2 3",
            "1, 1 2",
            "1, 1 2 3 time 4",
            "1, 1 2 3 4",
        ] {
            assert!(stamp(line).is_err(), "{line}");
        }
        for line in [
            "1, 1 2 3, 1 2 3",
            "3, 1 2 3",
            "1, 1 2 3 repeat - 1 d",
            "1, 1 2 3 delay - 1 D",
        ] {
            assert!(stamp(line).is_err(), "{line}");
        }
    }

    #[test]
    fn a_plan_has_each_keyword_once() {
        let [closed, deadline, scheduled] = plan("scheduled 1, 1 2 3; closed 4, 4 5 6").unwrap();
        assert_eq!((closed[0], deadline, scheduled[0]), (4, NO_STAMP, 1));
        for line in [
            "",
            "closed",
            "opened 1, 1 2 3",
            "closed 1, 1 2 3; closed 1, 1 2 3",
        ] {
            assert!(plan(line).is_err(), "{line}");
        }
    }
}
