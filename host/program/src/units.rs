//! Units of a text: what a cell's column and row are at the two ends of the chart, by party. The page writes and reads the same line:
//! `# units party=knee angle=0..127 angle-unit=deg load=0..1270 load-unit=N`. Cells stay what is drawn and sent.

use robequarry::limits::LAST_CELL;

use crate::walk::Point;

const PARTIES: [&str; 2] = ["knee", "ankle"];

/// An axis: the value at cell 0 and at the last cell, and the unit, which may be empty.
#[derive(Clone, Debug, PartialEq)]
pub struct Axis {
    low: f64,
    high: f64,
    unit: String,
}

/// The units of one party, as far as it has any.
#[derive(Clone, Debug, PartialEq)]
pub struct Units {
    pub party: &'static str,
    angle: Option<Axis>,
    load: Option<Axis>,
}

impl Axis {
    fn of(ends: Option<&str>, unit: Option<&str>) -> Option<Self> {
        let (low, high) = ends?.split_once("..")?;
        let number = |text: &str| text.parse::<f64>().ok().filter(|number| number.is_finite());
        let (low, high) = (number(low)?, number(high)?);
        (low != high).then(|| Axis { low, high, unit: unit.unwrap_or_default().to_string() })
    }

    /// The value at a cell, with as many digits as tell two cells apart.
    fn at(&self, cell: i32) -> String {
        let step = (self.high - self.low).abs() / f64::from(LAST_CELL);
        let digits = (-step.log10()).ceil().clamp(0.0, 6.0) as usize;
        let value = self.low + (self.high - self.low) * f64::from(cell) / f64::from(LAST_CELL);
        let number = format!("{value:.digits$}");
        let number = if number.trim_start_matches(['-', '0', '.']).is_empty() { number.replace('-', "") } else { number };
        if self.unit.is_empty() {
            number
        } else {
            format!("{number} {}", self.unit)
        }
    }
}

impl Units {
    /// The units that a comment of a text gives; none where it is another comment.
    pub fn of(comment: &str) -> Option<Self> {
        let words = comment.trim_start().strip_prefix('#')?.trim_start().strip_prefix("units")?;
        if !words.starts_with([' ', '\t']) {
            return None;
        }
        let pairs: Vec<(&str, &str)> = words.split_ascii_whitespace().filter_map(|word| word.split_once('=')).collect();
        let field = |name: &str| pairs.iter().rev().find(|(known, _)| *known == name).map(|(_, value)| *value);
        let party = PARTIES.into_iter().find(|party| field("party") == Some(party))?;
        let angle = Axis::of(field("angle"), field("angle-unit"));
        Some(Units { party, angle, load: Axis::of(field("load"), field("load-unit")) })
    }

    /// A cell in these units: both numbers, or the one that has a measure.
    pub fn cell(&self, (col, row): Point) -> Option<String> {
        let ends = [self.angle.as_ref().map(|axis| axis.at(col)), self.load.as_ref().map(|axis| axis.at(row))];
        let told: Vec<String> = ends.into_iter().flatten().collect();
        (!told.is_empty()).then(|| told.join(", "))
    }
}

#[cfg(test)]
mod tests {
    use super::*;

    #[test]
    fn the_line_of_the_page() {
        let units = Units::of("# units party=knee angle=0..127 angle-unit=deg load=0..1270 load-unit=N").unwrap();
        assert_eq!(units.party, "knee");
        assert_eq!(units.cell((0, 254)).unwrap(), "0.0 deg, 1270 N");
        assert_eq!(units.cell((127, 127)).unwrap(), "63.5 deg, 635 N");
        let one = Units::of("#units party=ankle load=-10..244").unwrap();
        assert_eq!((one.party, one.cell((3, 10)).unwrap()), ("ankle", "0".to_string()));
        assert_eq!(Units::of("# units party=hip angle=0..1"), None);
        assert_eq!(Units::of("# unitsparty=knee"), None);
        assert_eq!(Units::of("# wearer 1, units"), None);
        assert_eq!(Units::of("# units party=knee angle=0..0 load=x..1").unwrap().cell((1, 1)), None);
    }
}
