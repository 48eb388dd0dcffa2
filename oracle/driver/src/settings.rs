//! The list that the port's `settings` writes, by the driver's own function.

use crate::rf233::probe::power_to_setting;

/// A line for each power of a signed byte, from -128 on: the power and its setting.
pub fn listing() -> String {
    (i8::MIN..=i8::MAX)
        .map(|power| format!("{power} {}\n", power_to_setting(power)))
        .collect()
}
