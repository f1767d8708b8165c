//! The merged form of a sentence, from document 01's merge rules.

use crate::meaning::{compares, Sentence, Value, COUNT, MAX, MIN, PRODUCT, SUM};

/// A sentence with its set merged. Entries are (weight, literal); a sum or count has its entries on positive literals and a constant.
/// `written` is the number of entries that the set had before.
#[derive(Clone, PartialEq, Eq, Debug)]
pub struct Merged {
    pub head: u64,
    pub kind: u64,
    pub side: u64,
    pub bound: i128,
    pub constant: i128,
    pub written: u64,
    pub entries: Vec<(i128, i64)>,
}

pub fn merge(sentence: &Sentence) -> Merged {
    let (constant, entries) = match sentence.kind {
        SUM => merge_sum(&sentence.entries),
        COUNT => merge_sum(&members(&sentence.entries)),
        kind => (0, merge_equal(kind, &sentence.entries)),
    };
    Merged {
        head: sentence.head,
        kind: sentence.kind,
        side: sentence.side,
        bound: sentence.bound as i128,
        constant,
        written: sentence.entries.len() as u64,
        entries,
    }
}

/// 'A literal written twice counts once, because a set holds a member once; then it is merged as a sum.'
fn members(entries: &[(i64, i64)]) -> Vec<(i64, i64)> {
    let mut seen: Vec<(i64, i64)> = Vec::new();
    for &(_, literal) in entries {
        if !seen.contains(&(1, literal)) {
            seen.push((1, literal));
        }
    }
    seen
}

/// 'A sum set is merged per atom: the weight of a becomes (weights on a) minus (weights on -a), and the weights on -a go to a constant.
/// Atoms left with weight 0 are dropped.' 'Merged entries keep the place of the atom's first mention.'
fn merge_sum(entries: &[(i64, i64)]) -> (i128, Vec<(i128, i64)>) {
    let mut constant = 0;
    let mut merged: Vec<(i128, i64)> = Vec::new();
    let mut place = std::collections::HashMap::new();
    for &(weight, literal) in entries {
        let atom = literal.abs();
        let at = *place.entry(atom).or_insert_with(|| {
            merged.push((0, atom));
            merged.len() - 1
        });
        if literal > 0 {
            merged[at].0 += weight as i128;
        } else {
            merged[at].0 -= weight as i128;
            constant += weight as i128;
        }
    }
    merged.retain(|(weight, _)| *weight != 0);
    (constant, merged)
}

/// 'The same literal twice: max keeps the larger weight, min the smaller, product multiplies.' No atom has both signs there.
fn merge_equal(kind: u64, entries: &[(i64, i64)]) -> Vec<(i128, i64)> {
    let mut merged: Vec<(i128, i64)> = Vec::new();
    let mut place = std::collections::HashMap::new();
    for &(weight, literal) in entries {
        let weight = weight as i128;
        match place.get(&literal) {
            None => {
                place.insert(literal, merged.len());
                merged.push((weight, literal));
            }
            Some(&at) => {
                let kept = &mut merged[at].0;
                *kept = match kind {
                    PRODUCT => kept.saturating_mul(weight),
                    MAX => weight.max(*kept),
                    MIN => weight.min(*kept),
                    _ => unreachable!("sums and counts are merged per atom"),
                };
            }
        }
    }
    merged
}

impl Merged {
    /// The value of the merged set under a full assignment.
    pub fn value(&self, truth: &[bool]) -> Value {
        let taken = self.entries.iter().filter(|(_, literal)| crate::meaning::is_true(*literal, truth)).map(|(weight, _)| *weight);
        match self.kind {
            SUM | COUNT => Value::Number(self.constant + taken.sum::<i128>()),
            PRODUCT => Value::Number(taken.product()),
            MAX => taken.map(Value::Number).max().unwrap_or(Value::Below),
            _ => taken.map(Value::Number).min().unwrap_or(Value::Above),
        }
    }

    pub fn holds(&self, truth: &[bool]) -> bool {
        truth[self.head as usize] == compares(self.side, self.bound, self.value(truth))
    }

    /// The sentence's own atoms, head before entries, in the order in which propagate looks at them.
    pub fn atoms(&self) -> impl Iterator<Item = u64> + '_ {
        std::iter::once(self.head).chain(self.entries.iter().map(|(_, literal)| literal.unsigned_abs()))
    }

    pub fn mentions(&self, atom: u64) -> bool {
        self.atoms().any(|own| own == atom)
    }
}
