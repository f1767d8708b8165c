//! Propagation by the definitions: every full assignment that agrees with the trail is looked at. For small N only.

use crate::meaning::Value;

/// What a sentence has to say on a trail.
#[derive(Clone, Copy, PartialEq, Eq, Debug)]
pub enum Said {
    Nothing,
    /// 'no full assignment agreeing with the trail satisfies it'
    Conflict,
    /// 'its first forced open literal, head before entries'
    Forced(i64),
}

/// The atoms' values on a trail, atom a at index a.
pub type Values = [Option<bool>];

/// Every full assignment that agrees with the values, index 0 unused.
pub fn agreeing(values: &Values) -> impl Iterator<Item = Vec<bool>> + '_ {
    let open: Vec<usize> = (1..values.len()).filter(|atom| values[*atom].is_none()).collect();
    assert!(open.len() <= 20, "too many open atoms to look at every full assignment");
    (0u64..1 << open.len()).map(move |number| {
        let mut truth: Vec<bool> = values.iter().map(|value| value.unwrap_or(false)).collect();
        for (bit, atom) in open.iter().enumerate() {
            truth[*atom] = number >> bit & 1 == 1;
        }
        truth
    })
}

/// The least and the greatest value over the full assignments that agree.
pub fn range(values: &Values, value: impl Fn(&[bool]) -> Value) -> (Value, Value) {
    let all: Vec<Value> = agreeing(values).map(|truth| value(&truth)).collect();
    (*all.iter().min().unwrap(), *all.iter().max().unwrap())
}

/// What a sentence says, with its atoms in their order and its meaning as a test of full assignments: a literal is forced where it is
/// open and true in every full assignment that agrees and satisfies the sentence.
pub fn said(values: &Values, order: impl Iterator<Item = u64>, holds: impl Fn(&[bool]) -> bool) -> Said {
    let good: Vec<Vec<bool>> = agreeing(values).filter(|truth| holds(truth)).collect();
    if good.is_empty() {
        return Said::Conflict;
    }
    for atom in order {
        let at = atom as usize;
        if values[at].is_none() && good.iter().all(|truth| truth[at] == good[0][at]) {
            return Said::Forced(if good[0][at] { atom as i64 } else { -(atom as i64) });
        }
    }
    Said::Nothing
}
