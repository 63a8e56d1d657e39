//! Rounding to tenths of a hectare and to tonnes.

/// Hectares in ten-thousandths to tenths, half up.
pub fn tenths_of(ten_thousandths: u64) -> u64 {
    (ten_thousandths + 500) / 1000
}

/// Kilograms to the nearest tonne, exact halves away from zero.
pub fn tonnes_of(kilograms: i64) -> i64 {
    let size = (kilograms.abs() + 500) / 1000;
    size * kilograms.signum()
}

/// Tenths of a hectare times tenths of a tonne per hectare is ten kilograms.
pub fn kilograms_of(tenths: u64, cell: u64) -> u64 {
    tenths * cell * 10
}

#[cfg(test)]
mod tests {
    use super::*;

    #[test]
    fn hectares_round_half_up() {
        assert_eq!(tenths_of(458_300), 458);
        assert_eq!(tenths_of(458_500), 459);
        assert_eq!(tenths_of(10_400), 10);
        assert_eq!(tenths_of(99_999_500), 100_000);
    }

    #[test]
    fn half_tonnes_round_away_from_zero() {
        assert_eq!(tonnes_of(500), 1);
        assert_eq!(tonnes_of(-500), -1);
        assert_eq!(tonnes_of(499), 0);
        assert_eq!(tonnes_of(-499), 0);
        assert_eq!(tonnes_of(-1500), -2);
        assert_eq!(tonnes_of(1499), 1);
    }
}
