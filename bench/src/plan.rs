//! Plans: sentences of all kinds and both sides, rings among them, with as many atoms, sentences and entries as asked.

use crate::random::Random;

#[derive(Clone)]
pub struct Columns {
    pub heads: Vec<u64>,
    pub kinds: Vec<u64>,
    pub sides: Vec<u64>,
    pub bounds: Vec<i64>,
    pub counts: Vec<u64>,
    pub weights: Vec<i64>,
    pub literals: Vec<i64>,
}

pub struct Plan {
    pub name: &'static str,
    pub atoms: u64,
    pub columns: Columns,
}

impl Plan {
    pub fn words(&self) -> usize {
        4 * self.atoms as usize + 8 * self.columns.heads.len() + 2 * self.columns.weights.len()
    }
}

/// In a ring each head stands in the set of the sentence before it.
const RING: usize = 8;

/// `atoms`, `sentences` and 16 entries a sentence on average. The heads are the first atoms; every other eight sentences are a ring.
pub fn plan(name: &'static str, atoms: u64, sentences: usize, seed: u64) -> Plan {
    let mut random = Random::new(seed);
    let mut c = Columns {
        heads: Vec::new(),
        kinds: Vec::new(),
        sides: Vec::new(),
        bounds: Vec::new(),
        counts: Vec::new(),
        weights: Vec::new(),
        literals: Vec::new(),
    };
    let mut debt = 0;
    for s in 0..sentences {
        let own = s as u64 + 1;
        // sizes go in pairs that add up to 32
        let size = if s % 2 == 0 {
            let first = random.between(6, 26);
            debt = 32 - first;
            first
        } else {
            debt
        };
        let kind = (s % 5) as u64;
        let side = random.below(2);
        let ring = s / RING % 2 == 0;
        let mut atoms_of: Vec<u64> = Vec::new();
        if ring {
            atoms_of.push((s / RING * RING + (s + 1) % RING) as u64 + 1);
        }
        while atoms_of.len() < size as usize {
            // heads of other sentences, and questions
            let a = if random.chance(4) { 1 + random.below(sentences as u64) } else { 1 + random.below(atoms) };
            // now and then an atom twice, with the same sign, in sums and counts
            let again = (kind == 0 || kind == 2) && random.chance(8);
            if a != own && (again || !atoms_of.contains(&a)) {
                atoms_of.push(a);
            }
        }
        let mut weights = Vec::new();
        for &a in &atoms_of {
            let negative = random.chance(4);
            weights.push(match kind {
                0 => random.between(-20, 60),
                1 => random.between(1, 4),
                2 => 1,
                _ => random.between(-50, 50),
            });
            c.literals.push(if negative { -(a as i64) } else { a as i64 });
        }
        // products stay far below 10^18: 4^26 = 2^52
        let size = size as i64;
        let bound = match kind {
            0 => random.between(4 * size, 16 * size),
            1 => 1 << random.between(size / 3, size),
            2 => random.between(size / 5, 4 * size / 5),
            3 => random.between(10, 45),
            _ => random.between(-45, -10),
        };
        c.heads.push(own);
        c.kinds.push(kind);
        c.sides.push(side);
        c.bounds.push(bound);
        c.counts.push(size as u64);
        c.weights.extend(weights);
    }
    Plan { name, atoms, columns: c }
}
