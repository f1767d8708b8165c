//! Programs with one fault each, over the checker's own reader and listing: with them the comparison of texts is known to find faults.

use crate::listing;
use crate::opb::read;
use crate::programs::Program;

#[derive(Clone, Copy, PartialEq, Eq, Debug)]
pub enum Misread {
    None,
    /// A first line that ends in CR LF is refused.
    CrLfRefused,
    /// A comment's `*` may stand behind blanks.
    StarBehindBlanks,
    /// Integers of 19 digits are taken where a leading zero makes them small.
    NineteenDigits,
    /// The upper side of `=` comes first.
    UpperFirst,
    /// k counts a constraint that is not complete.
    CountsBegun,
    /// The last line has no LF.
    NoLastLf,
    /// A conflict is printed as still.
    ConflictIsStill,
    /// A vertical tab is a blank.
    VerticalTab,
    /// 65,536 bytes are too many.
    BytesTooFew,
    /// 256 sentences are too many.
    SentencesTooFew,
    /// The given literals count as derived.
    CountsGiven,
    /// A missing blank between terms is overlooked.
    TermsTogether,
    /// The rows are put on a page of 8,192 bytes, which cuts them.
    Page,
    /// The listing ends at 16,384 bytes.
    ListingCut,
    /// The literals derived are counted modulo 613.
    CountModulo,
    /// The literals derived before a conflict are counted up to 999.
    ConflictCount,
    /// The row behind the 512th is lost.
    RowLost,
    /// The 1,024th row is lost.
    LastRowLost,
    /// Bounds have up to 12 digits.
    TwelveDigits,
    /// 256 sentences with 4,096 entries are too many together.
    TooManyTogether,
}

pub const MISREADS: [Misread; 12] = [
    Misread::CrLfRefused,
    Misread::StarBehindBlanks,
    Misread::NineteenDigits,
    Misread::UpperFirst,
    Misread::CountsBegun,
    Misread::NoLastLf,
    Misread::ConflictIsStill,
    Misread::VerticalTab,
    Misread::BytesTooFew,
    Misread::SentencesTooFew,
    Misread::CountsGiven,
    Misread::TermsTogether,
];

/// Those that show in the largest texts only.
pub const MISLISTED: [Misread; 8] = [
    Misread::Page,
    Misread::ListingCut,
    Misread::CountModulo,
    Misread::ConflictCount,
    Misread::RowLost,
    Misread::LastRowLost,
    Misread::TwelveDigits,
    Misread::TooManyTogether,
];

/// Within this process.
pub struct Own(pub Misread);

impl Program for Own {
    fn print(&self, text: &[u8], _turn: usize) -> Result<Vec<u8>, String> {
        Ok(print(text, self.0))
    }
}

pub fn print(text: &[u8], fault: Misread) -> Vec<u8> {
    let other = misread(text, fault);
    let mut out = listing::program(&other);
    match (fault, read(&other)) {
        (Misread::UpperFirst, Ok(mut plan)) => {
            for i in 1..plan.sentences.len() {
                if plan.sentences[i].side == 1 {
                    plan.sentences.swap(i - 1, i);
                }
            }
            out = listing::planned(&plan);
        }
        (Misread::CountsBegun, Err(refused)) if refused.code == 22 && text.contains(&b'>') => {
            out = format!("refused 22 {}\n", refused.complete + 1);
        }
        (Misread::NoLastLf, _) => {
            out.pop();
        }
        (Misread::ConflictIsStill, _) if out.starts_with("conflict") => {
            let rest = out.split_off(out.find('\n').unwrap());
            let derived = out.split(' ').nth(1).unwrap().to_string();
            out = format!("still {derived}{rest}");
        }
        (Misread::SentencesTooFew, Ok(plan)) if plan.sentences.len() == 256 => {
            out = format!("refused 24 {}\n", plan.constraints - 1);
        }
        (Misread::CountsGiven, Ok(_)) if out.starts_with("still") => {
            let rest = out.split_off(out.find('\n').unwrap());
            out = format!("still {}{rest}", rest.lines().filter(|line| line.starts_with('t')).count());
        }
        (Misread::BytesTooFew, _) if text.len() == 65_536 => out = "refused 23 0\n".into(),
        (Misread::ListingCut, _) => out.truncate(16_384),
        (Misread::TooManyTogether, Ok(plan)) if plan.sentences.len() == 256 => {
            if plan.sentences.iter().map(|sentence| sentence.entries.len()).sum::<usize>() == 4096 {
                out = format!("refused 24 {}\n", plan.constraints - 1);
            }
        }
        (_, Ok(_)) => out = mislisted(&out, fault),
        _ => (),
    }
    out.into_bytes()
}

/// The listing with the fault in its lines.
fn mislisted(listing: &str, fault: Misread) -> String {
    let (mut out, mut rows) = (String::new(), 0);
    let mut page = 8192;
    for line in listing.split_inclusive('\n') {
        let mut words: Vec<String> = line.trim_end().split(' ').map(String::from).collect();
        rows += (words[0] == "t") as usize;
        match (fault, words[0].as_str()) {
            (Misread::Page, "t") => {
                let kept = page.min(line.len());
                page -= kept;
                out += &line[..kept];
                continue;
            }
            (Misread::RowLost, "t") if rows == 513 => continue,
            (Misread::LastRowLost, "t") if rows == 1024 => continue,
            (Misread::CountModulo, "still" | "conflict") => words[1] = (words[1].parse::<u64>().unwrap() % 613).to_string(),
            (Misread::ConflictCount, "conflict") => words[1] = words[1].parse::<u64>().unwrap().min(999).to_string(),
            (Misread::TwelveDigits, "b") => {
                for bound in &mut words[2..] {
                    *bound = (bound.parse::<i64>().unwrap() % 1_000_000_000_000).to_string();
                }
            }
            _ => (),
        }
        out += &words.join(" ");
        out += "\n";
    }
    out
}

/// The text that the faulty program takes the text for.
fn misread(text: &[u8], fault: Misread) -> Vec<u8> {
    let mut out: Vec<u8> = Vec::new();
    match fault {
        Misread::CrLfRefused => {
            let line = text.iter().position(|byte| *byte == b'\n').unwrap_or(0);
            out.extend(text);
            if line > 0 && out[line - 1] == b'\r' {
                out[line] = b'?';
            }
        }
        Misread::StarBehindBlanks => {
            for byte in text {
                if *byte == b'*' {
                    while let Some(b' ' | b'\t' | b'\r') = out.last() {
                        out.pop();
                    }
                }
                out.push(*byte);
            }
        }
        Misread::NineteenDigits => {
            let mut at = 0;
            while at < text.len() {
                let run = text[at..].iter().take_while(|byte| byte.is_ascii_digit()).count();
                let zeros = (run == 19 && text[at] == b'0') as usize;
                let behind = at + run.max(1);
                out.extend(&text[at + zeros..behind]);
                at = behind;
            }
        }
        Misread::VerticalTab => out.extend(text.iter().map(|byte| if *byte == 0x0b { b' ' } else { *byte })),
        Misread::TermsTogether => {
            for (i, byte) in text.iter().enumerate() {
                if matches!(byte, b'+' | b'-') && i > 0 && text[i - 1].is_ascii_digit() {
                    out.push(b' ');
                }
                out.push(*byte);
            }
        }
        _ => out.extend(text),
    }
    out
}
