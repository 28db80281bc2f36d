//! Call 28: the date of a number of seconds (document 01, "Clock and recordings": a timestamp's seconds).
//! No number of seconds that has 40 bits is refused; a larger one makes no case.

use super::Call;
use crate::answer::Answer;
use crate::calendar::{date, start_of_day, FIRST_YEAR};
use crate::fields::{bodies, lines, Arguments, Fields};
use crate::random::Random;
use crate::reader::Reader;

pub const DATE: Call = Call {
    code: 28,
    name: "date",
    fixed,
    random,
    answer,
    arguments: lines::<Seconds>,
    values: &["year", "month", "day", "hour", "minute", "second"],
    buffers: &[],
};

/// Numbers of seconds are below.
const END: u64 = 1 << 40;

#[derive(Default, Clone)]
struct Seconds(u64);

impl Arguments for Seconds {
    fn each(&mut self, fields: &mut impl Fields) -> Option<()> {
        fields.number("seconds", &mut self.0)
    }
}

fn answer(body: &mut Reader) -> Option<Answer> {
    let Seconds(seconds) = Seconds::read(body)?;
    if seconds >= END {
        return None;
    }
    let date = date(seconds);
    let values = [
        date.year,
        date.month,
        date.day,
        date.hour,
        date.minute,
        date.second,
    ];
    Some(Answer::of(Ok(values)))
}

/// Years with and without a leap day, around those that the calendar's exceptions are about.
const YEARS: [u64; 16] = [
    2000, 2001, 2003, 2004, 2099, 2100, 2101, 2104, 2199, 2200, 2300, 2399, 2400, 2500, 2800, 4000,
];

/// The last and the first second of months, years, centuries and eras, and of smaller units.
fn fixed(_random: &mut Random) -> Vec<Vec<u8>> {
    let mut starts = vec![60, 3_600, 43_200, 86_400, 1 << 31, 1 << 32, END - 1, END];
    for year in YEARS {
        for (month, day) in [(1, 1), (2, 28), (2, 29), (3, 1), (12, 31)] {
            starts.push(start_of_day(year, month, day));
        }
    }
    for month in 1..=12 {
        starts.push(start_of_day(FIRST_YEAR + 26, month, 1));
    }
    let mut seconds: Vec<u64> = vec![0];
    for start in starts {
        seconds.extend([start.saturating_sub(1), start, start + 86_399]);
    }
    seconds.retain(|seconds| *seconds < END);
    seconds.sort();
    seconds.dedup();
    bodies(seconds.into_iter().map(Seconds).collect())
}

/// Of all sizes, of this century, and at the ends of days.
fn random(random: &mut Random) -> Vec<u8> {
    let seconds = match random.below(4) {
        0 => random.draw() >> (24 + random.below(40)),
        1 => random.below(36_525 * 86_400),
        2 => random.below(END / 86_400) * 86_400 + random.pick(&[0, 1, 59, 3_599, 86_399]),
        _ => random.below(END),
    };
    Seconds(seconds.min(END - 1)).body()
}
