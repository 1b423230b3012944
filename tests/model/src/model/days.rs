//! Which days a trip runs (document 02, T-07): "a bit for each of days 0 to 31".

use crate::faults::{planted, Fault};

pub const LAST_DAY: u32 = 31;
/// The day word with every bit set.
pub const EVERY_DAY: u32 = u32::MAX;

/// "17 for a day above 31."
pub fn is_day(day: u32) -> bool {
    if planted(Fault::DayPastLast) {
        return day <= LAST_DAY + 1;
    }
    if planted(Fault::LastDayRefused) {
        return day < LAST_DAY;
    }
    if planted(Fault::DayCut) {
        return day % 256 <= LAST_DAY;
    }
    day <= LAST_DAY
}

/// "16 for a word of zero": such a trip runs on no day.
pub fn runs_never(days: u32) -> bool {
    if planted(Fault::SignedDays) {
        return days as i32 <= 0;
    }
    days == 0
}

/// Day d is the bit of value 2^d. A day above 31 is refused before; here it gets some bit.
pub fn runs_on(days: u32, day: u32) -> bool {
    if planted(Fault::BitsFromOne) {
        return day > 0 && runs_by_bit(days, day - 1);
    }
    runs_by_bit(days, day)
}

fn runs_by_bit(days: u32, bit: u32) -> bool {
    let value = 1u32.wrapping_shl(bit);
    days / value % 2 == 1
}
