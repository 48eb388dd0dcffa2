//! The setting of PHY_TX_PWR for a power, by document 01's comparisons.

/// The least power, in dBm, that has each setting, from the highest down.
const LEAST: [(i8, u8); 12] = [
    (4, 0x00),
    (3, 0x03),
    (2, 0x05),
    (1, 0x06),
    (0, 0x07),
    (-1, 0x08),
    (-2, 0x09),
    (-3, 0x0A),
    (-4, 0x0B),
    (-6, 0x0C),
    (-8, 0x0D),
    (-12, 0x0E),
];
/// The setting of every lower power.
const LOWEST: u8 = 0x0F;

pub fn power_to_setting(power: i8) -> u8 {
    let found = LEAST.iter().find(|(least, _)| power >= *least);
    found.map_or(LOWEST, |(_, setting)| *setting)
}

#[cfg(test)]
mod tests {
    use super::power_to_setting;

    #[test]
    fn the_cases_of_document_01() {
        assert_eq!(power_to_setting(-5), 0x0C);
        assert_eq!(power_to_setting(-13), 0x0F);
        let around = [2, 3, 4, 127, -17, -128].map(power_to_setting);
        assert_eq!(around, [5, 3, 0, 0, 0x0F, 0x0F]);
    }

    #[test]
    fn the_rust_has_the_same_settings() {
        let lines =
            (i8::MIN..=i8::MAX).map(|power| format!("{power} {}\n", power_to_setting(power)));
        assert_eq!(lines.collect::<String>(), crate::settings::listing());
    }
}
