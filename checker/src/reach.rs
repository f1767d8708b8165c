//! How far the texts, scripts and lists of calls reach: the largest of each measure, and the floors below which a run fails. The floors
//! stand here and nowhere else.

use std::collections::BTreeMap;

/// Each measure with the least that its largest must be.
pub type Floors = &'static [(&'static str, u64)];

/// Over the texts that are not refused.
pub const OPB: Floors = &[
    ("literals derived", 1_023),
    ("literals derived before a conflict", 1_022),
    ("rows", 1_024),
    ("bytes printed", 20_000),
    ("bytes of text", 65_536),
    ("sentences", 256),
    ("entries", 4_096),
    ("sentences beside 4,096 entries", 256),
    ("digits of a bound", 13),
];

/// Over what the console answers with code 0.
pub const CONSOLE: Floors = &[
    ("rows of a trail", 1_024),
    ("literals of an explanation", 1_024),
    ("literals of a conflict's explanation", 1_024),
    ("literals of an origin", 1_023),
    ("literals derived", 1_023),
    ("levels", 1_024),
    ("rules", 256),
    ("entries", 4_096),
    ("bytes of an answer", 13_000),
    ("bytes of a line", 65_536),
];

/// Over the calls with code 0.
pub const CALLS: Floors = &[
    ("sentences loaded", 256),
    ("entries loaded", 4_096),
    ("rows", 1_024),
    ("levels", 1_024),
    ("literals derived by a propagate", 1_023),
    ("literals derived by a search", 1_022),
    ("literals of a search's list", 1_024),
    ("literals gone through by a search", 1_024),
    ("literals tried by a search", 1_021),
    ("literals of an explanation", 1_023),
    ("literals of a conflict's explanation", 1_023),
    ("literals of an origin", 1_022),
];

pub struct Reach {
    floors: Floors,
    largest: BTreeMap<&'static str, u64>,
}

impl Reach {
    pub fn new(floors: Floors) -> Reach {
        Reach { floors, largest: BTreeMap::new() }
    }

    pub fn meet(&mut self, measure: &'static str, value: u64) {
        let largest = self.largest.entry(measure).or_default();
        *largest = value.max(*largest);
    }

    pub fn add(&mut self, other: &Reach) {
        for (measure, largest) in &other.largest {
            self.meet(measure, *largest);
        }
    }

    /// The largest of each measure, or the first that is below its floor.
    pub fn said(&self) -> Result<String, String> {
        let mut said = Vec::new();
        for (measure, floor) in self.floors {
            let largest = self.largest.get(measure).copied().unwrap_or(0);
            if largest < *floor {
                return Err(format!("only {largest} {measure}, which is below {floor}"));
            }
            said.push(format!("{largest} {measure}"));
        }
        Ok(format!("the largest: {}", said.join(", ")))
    }
}
