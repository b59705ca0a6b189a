//! Times: femtoseconds in the file, units for people.

/// Units, the largest first, and the femtoseconds of each.
const SHOWN: [(&str, u64); 6] = [
    ("s", 1_000_000_000_000_000),
    ("ms", 1_000_000_000_000),
    ("us", 1_000_000_000),
    ("ns", 1_000_000),
    ("ps", 1_000),
    ("fs", 1),
];
/// Further units that are understood.
const TAKEN: [(&str, u64); 3] =
    [("sec", 1_000_000_000_000_000), ("min", 60_000_000_000_000_000), ("hr", 3_600_000_000_000_000_000)];

/// A time in the largest unit that shows it exactly: `25 ns`.
pub fn text(femtoseconds: u64) -> String {
    let whole = SHOWN.iter().find(|(_, unit)| femtoseconds != 0 && femtoseconds % unit == 0);
    let (name, unit) = whole.unwrap_or(&("fs", 1));
    format!("{} {}", femtoseconds / unit, name)
}

/// A time as it is typed: `25ns`, `25 ns`, `1.5us`, or a number of femtoseconds.
pub fn parse(text: &str) -> Result<u64, String> {
    let wrong = || format!("'{text}' is no time: write it as 25ns, '25 ns', 1.5us or a number of femtoseconds");
    let typed = text.trim();
    let digits = typed.find(|c: char| !c.is_ascii_digit() && c != '.').unwrap_or(typed.len());
    let (number, unit) = typed.split_at(digits);
    let unit = match unit.trim() {
        "" => 1,
        name => SHOWN.iter().chain(&TAKEN).find(|(known, _)| *known == name).ok_or_else(wrong)?.1,
    };
    let (whole, part) = number.split_once('.').unwrap_or((number, ""));
    let dots = number.matches('.').count();
    if dots > 1 || whole.is_empty() || (dots == 1 && part.is_empty()) || whole.len() + part.len() > 20 {
        return Err(wrong());
    }
    // at most twenty digits and a unit below 2^62: no overflow in 128 bits
    let all: u128 = format!("{whole}{part}").parse().map_err(|_| wrong())?;
    let (scaled, scale) = (all * u128::from(unit), 10u128.pow(part.len() as u32));
    if scaled % scale != 0 {
        return Err(format!("'{text}' is no whole number of femtoseconds"));
    }
    u64::try_from(scaled / scale).map_err(|_| format!("'{text}' is past the last time, 2^64-1 femtoseconds"))
}

#[cfg(test)]
mod tests {
    use super::*;

    #[test]
    fn the_largest_unit_that_shows_it_exactly() {
        let shown = [
            (0, "0 fs"),
            (1, "1 fs"),
            (1_000, "1 ps"),
            (25_000_000, "25 ns"),
            (10_500_000, "10500 ps"),
            (1_500_000_000, "1500 ns"),
            (2_000_000_000, "2 us"),
            (3_000_000_000_000_000, "3 s"),
            (u64::MAX, "18446744073709551615 fs"),
        ];
        for (time, wanted) in shown {
            assert_eq!(text(time), wanted);
            assert_eq!(parse(wanted), Ok(time));
        }
    }

    #[test]
    fn times_as_they_are_typed() {
        for typed in ["25ns", "25 ns", " 25 ns ", "25000000", "25000000fs", "0.025us", "25.000 ns", "00025ns"] {
            assert_eq!(parse(typed), Ok(25_000_000), "{typed}");
        }
        assert_eq!(parse("1.5us"), Ok(1_500_000_000));
        assert_eq!(parse("1 hr"), Ok(3_600_000_000_000_000_000));
        let wrong = [
            "",
            "ns",
            "25 parsecs",
            "1.2.3ns",
            ".5ns",
            "5.ns",
            "-1ns",
            "1e3ns",
            "0.5",
            "0.1 fs",
            "6hr",
            "99999999999999999999",
        ];
        for typed in wrong {
            assert!(parse(typed).is_err(), "{typed}");
        }
    }
}
