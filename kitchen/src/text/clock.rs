//! Times of a day.

use std::fmt::{Display, Formatter, Result};
use std::str::FromStr;

const MINUTES_OF_AN_HOUR: u16 = 60;
const HOURS_OF_A_DAY: u16 = 24;

/// A time of a day, as in 09:42: minutes since midnight.
#[derive(Clone, Copy, Debug, PartialEq, Eq, PartialOrd, Ord)]
pub struct Clock(u16);

impl Clock {
    /// The minutes since midnight.
    pub fn minutes(self) -> u32 {
        self.0.into()
    }
}

impl FromStr for Clock {
    type Err = ();

    fn from_str(text: &str) -> std::result::Result<Clock, ()> {
        let (hours, minutes) = text.split_once(':').ok_or(())?;
        let is_short = |digits: &str| {
            (1..=2).contains(&digits.len()) && digits.bytes().all(|digit| digit.is_ascii_digit())
        };
        if !is_short(hours) || !is_short(minutes) {
            return Err(());
        }
        let hours: u16 = hours.parse().map_err(|_| ())?;
        let minutes: u16 = minutes.parse().map_err(|_| ())?;
        if hours >= HOURS_OF_A_DAY || minutes >= MINUTES_OF_AN_HOUR {
            return Err(());
        }
        Ok(Clock(MINUTES_OF_AN_HOUR * hours + minutes))
    }
}

impl Display for Clock {
    fn fmt(&self, to: &mut Formatter) -> Result {
        let (hours, minutes) = (self.0 / MINUTES_OF_AN_HOUR, self.0 % MINUTES_OF_AN_HOUR);
        write!(to, "{hours:02}:{minutes:02}")
    }
}
