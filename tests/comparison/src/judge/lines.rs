//! A listing's text as numbers.

use reckoning::rules::refusals::NUMBERS;

pub const HEADER: &str = "entry answer paid held";

/// An entry's line, with the payouts printed after it.
#[derive(Clone, Debug)]
pub struct Line {
    pub number: u64,
    pub answer: u8,
    pub paid: u128,
    pub held: u128,
    pub pays: Vec<(usize, u128)>,
}

impl Line {
    /// What is paid to each of n participants; pay lines rise and are never 0.
    pub fn payouts(&self, n: usize) -> Result<Vec<u128>, String> {
        let mut payouts = vec![0; n];
        let rises = self.pays.windows(2).all(|pair| pair[0].0 < pair[1].0);
        if !rises || self.pays.iter().any(|&(i, cents)| i >= n || cents == 0) {
            return Err("pay lines that cannot be".into());
        }
        for &(i, cents) in &self.pays {
            payouts[i] = cents;
        }
        Ok(payouts)
    }
}

/// Numbers of 64 bits, so that no sum of them wraps.
fn numbers<const K: usize>(words: &[&str]) -> Option<[u64; K]> {
    let values: Option<Vec<u64>> = words.iter().map(|word| word.parse().ok()).collect();
    values?.try_into().ok()
}

fn entry_line(words: &[&str]) -> Option<Line> {
    let [number, answer, paid, held] = numbers(words)?;
    let answer = u8::try_from(answer).ok().filter(|&answer| usize::from(answer) < NUMBERS)?;
    Some(Line { number, answer, paid: paid.into(), held: held.into(), pays: vec![] })
}

/// The lines of a listing after its header.
pub fn parse(listing: &[u8]) -> Result<Vec<Line>, String> {
    let text = std::str::from_utf8(listing).map_err(|_| "the listing is not text")?;
    let Some(body) = text.strip_prefix(HEADER).and_then(|rest| rest.strip_prefix('\n')) else {
        return Err("the listing has no header".into());
    };
    if !body.is_empty() && !body.ends_with('\n') {
        return Err("the listing's last line has no end".into());
    }
    let mut lines: Vec<Line> = Vec::new();
    for text in body.lines() {
        let words: Vec<&str> = text.split(' ').collect();
        let unknown = || format!("a line that is none of a listing: {text}");
        if words[0] == "pay" {
            let [participant, cents] = numbers(&words[1..]).ok_or_else(unknown)?;
            let line = lines.last_mut().ok_or_else(unknown)?;
            line.pays.push((participant as usize, cents.into()));
        } else {
            lines.push(entry_line(&words).ok_or_else(unknown)?);
        }
    }
    Ok(lines)
}
