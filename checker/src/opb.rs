//! A reader of OPB texts, written by hand from document 01, 'The OPB program', and the readings of it. It goes through the text once
//! from the front and stops at the first fault, so the earliest fault is the one that it reports. A number's own fault stands at its
//! last digit and is therefore looked at before the byte behind the number.

use crate::meaning::{Sentence, LOWER, MOST_ATOMS, MOST_ENTRIES, MOST_SENTENCES, SUM, UPPER};

pub const MOST_BYTES: usize = 65_536;

/// 'refused N k'
#[derive(Clone, Copy, PartialEq, Eq, Debug)]
pub struct Refused {
    pub code: u64,
    pub complete: u64,
}

/// What a text that is not refused says.
#[derive(Clone, PartialEq, Eq, Debug)]
pub struct Plan {
    pub variables: u64,
    pub constraints: u64,
    pub sentences: Vec<Sentence>,
}

/// 23 comes first, then the earliest fault in the text.
pub fn read(text: &[u8]) -> Result<Plan, Refused> {
    if text.len() > MOST_BYTES {
        return Err(Refused { code: 23, complete: 0 });
    }
    let mut reader = Reader { text, at: 0, complete: 0, entries: 0, plan: Plan { variables: 0, constraints: 0, sentences: Vec::new() } };
    match reader.whole() {
        Ok(()) => Ok(reader.plan),
        Err(code) => Err(Refused { code, complete: reader.complete }),
    }
}

struct Reader<'a> {
    text: &'a [u8],
    at: usize,
    complete: u64,
    entries: u64,
    plan: Plan,
}

/// A run of digits: how many, and the number, which stops growing at 10^30.
struct Digits {
    many: usize,
    number: u128,
}

fn blank(byte: u8) -> bool {
    matches!(byte, b' ' | b'\t' | b'\r' | b'\n')
}

impl Reader<'_> {
    fn byte(&self) -> Option<u8> {
        self.text.get(self.at).copied()
    }

    /// '20 at the first byte that can't stand there, or at the end': this byte has to be next.
    fn expect(&mut self, byte: u8) -> Result<(), u64> {
        if self.byte() != Some(byte) {
            return Err(20);
        }
        self.at += 1;
        Ok(())
    }

    fn skip_blanks(&mut self) -> usize {
        let from = self.at;
        while self.byte().is_some_and(blank) {
            self.at += 1;
        }
        self.at - from
    }

    fn blanks(&mut self) -> Result<(), u64> {
        if self.skip_blanks() == 0 {
            Err(20)
        } else {
            Ok(())
        }
    }

    fn digits(&mut self) -> Result<Digits, u64> {
        let mut digits = Digits { many: 0, number: 0 };
        while let Some(byte @ b'0'..=b'9') = self.byte() {
            digits.many += 1;
            digits.number = (digits.number * 10 + (byte - b'0') as u128).min(10u128.pow(30));
            self.at += 1;
        }
        if digits.many == 0 {
            Err(20)
        } else {
            Ok(digits)
        }
    }

    /// 'integer with optional sign'; '22 an integer of 19 digits or more'.
    fn integer(&mut self) -> Result<i64, u64> {
        let negative = self.byte() == Some(b'-');
        if matches!(self.byte(), Some(b'+' | b'-')) {
            self.at += 1;
        }
        let digits = self.digits()?;
        if digits.many >= 19 {
            return Err(22);
        }
        Ok(if negative { -(digits.number as i64) } else { digits.number as i64 })
    }

    fn whole(&mut self) -> Result<(), u64> {
        self.first_line()?;
        loop {
            let line_starts = self.text[self.at - 1] == b'\n';
            match self.byte() {
                None => break,
                Some(byte) if blank(byte) => self.at += 1,
                // 'Later lines starting with `*` outside a constraint are comments, up to LF or the end.'
                Some(b'*') if line_starts => {
                    while self.byte().is_some_and(|byte| byte != b'\n') {
                        self.at += 1;
                    }
                }
                Some(b'+' | b'-' | b'0'..=b'9') => self.constraint()?,
                Some(_) => return Err(20),
            }
        }
        // 'at the end not C constraints'
        if self.complete == self.plan.constraints {
            Ok(())
        } else {
            Err(21)
        }
    }

    /// 'First line: `* #variable= V #constraint= C`, one space at each gap, then LF or CR LF; V and C are digits only.'
    fn first_line(&mut self) -> Result<(), u64> {
        for byte in b"* #variable= " {
            self.expect(*byte)?;
        }
        let v = self.digits()?;
        if v.number == 0 {
            return Err(21);
        }
        if v.many >= 19 {
            return Err(22);
        }
        for byte in b" #constraint= " {
            self.expect(*byte)?;
        }
        let c = self.digits()?;
        if v.number + c.number > MOST_ATOMS as u128 {
            return Err(21);
        }
        if c.many >= 19 {
            return Err(22);
        }
        self.plan.variables = v.number as u64;
        self.plan.constraints = c.number as u64;
        if self.byte() == Some(b'\r') {
            self.at += 1;
        }
        self.expect(b'\n')
    }

    /// 'one or more terms, then `>=` or `=`, an integer, `;`. Terms, relation and right side are parted by blanks; blanks around `;` are
    /// optional.' The first byte of a term is next.
    fn constraint(&mut self) -> Result<(), u64> {
        let mut entries = Vec::new();
        while matches!(self.byte(), Some(b'+' | b'-' | b'0'..=b'9')) {
            entries.push(self.term()?);
            self.blanks()?;
        }
        let equal = self.byte() == Some(b'=');
        if !equal {
            self.expect(b'>')?;
        }
        self.expect(b'=')?;
        // '24 more than 256 sentences or 4,096 entries, those of `=` twice', at the last byte of the relation.
        let copies = if equal { 2 } else { 1 };
        self.entries += (copies - 1) * entries.len() as u64;
        if self.plan.sentences.len() as u64 + copies > MOST_SENTENCES || self.entries > MOST_ENTRIES {
            return Err(24);
        }
        self.blanks()?;
        let bound = self.integer()?;
        self.skip_blanks();
        self.expect(b';')?;
        self.complete += 1;
        // 'Constraint j has head V + j'; '`=` makes two sentences with that head, lower side first.'
        for side in [LOWER, UPPER].into_iter().take(copies as usize) {
            let head = self.plan.variables + self.complete;
            self.plan.sentences.push(Sentence { head, kind: SUM, side, bound, entries: entries.clone() });
        }
        Ok(())
    }

    /// 'integer with optional sign, blanks, `x` and a number from 1 without leading zero'
    fn term(&mut self) -> Result<(i64, i64), u64> {
        let weight = self.integer()?;
        self.blanks()?;
        self.expect(b'x')?;
        if self.byte() == Some(b'0') {
            return Err(20);
        }
        let variable = self.digits()?;
        if variable.number > self.plan.variables as u128 {
            return Err(21);
        }
        self.entries += 1;
        if self.entries > MOST_ENTRIES {
            return Err(24);
        }
        Ok((weight, variable.number as i64))
    }
}
