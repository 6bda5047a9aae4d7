//! Damaged pairs from a fixed seed, on which both checkers are compared.

use crate::pairs::Pair;
use crate::peer::Needs;

/// Numbers that look drawn by lot (xorshift).
pub struct Dice(u64);

impl Dice {
    pub fn new(seed: u64) -> Dice {
        Dice(seed * 2 + 1)
    }

    /// Below `end`, which is not 0.
    fn below(&mut self, end: usize) -> usize {
        self.0 ^= self.0 << 13;
        self.0 ^= self.0 >> 7;
        self.0 ^= self.0 << 17;
        (self.0 % end as u64) as usize
    }
}

/// The bytes with a token replaced, left out or doubled, or two lines
/// exchanged, or a line left out or doubled.
fn damaged(bytes: &[u8], dice: &mut Dice) -> Vec<u8> {
    let mut lines: Vec<Vec<&[u8]>> =
        bytes.split(|&b| b == b'\n').map(|line| line.split(|&b| b == b' ').collect()).collect();
    let (i, j) = (dice.below(lines.len()), dice.below(lines.len()));
    let k = dice.below(lines[i].len());
    let other = lines[j][dice.below(lines[j].len())];
    match dice.below(6) {
        0 => lines[i][k] = other,
        1 => drop(lines[i].remove(k)),
        2 => lines[i].insert(k, other),
        3 => lines.swap(i, j),
        4 => drop(lines.remove(i)),
        _ => lines.insert(j, lines[i].clone()),
    }
    lines.iter().map(|line| line.join(&b' ')).collect::<Vec<_>>().join(&b'\n')
}

/// The pair with one of its files damaged, or both left as they are; and
/// tables' lengths, of which one is now and then a place short.
pub fn pair(original: &Pair, needs: &Needs, dice: &mut Dice) -> (Pair, Needs) {
    let mut pair = original.clone();
    match dice.below(10) {
        0 => {}
        1 => pair.formula = damaged(&pair.formula, dice),
        _ => pair.certificate = damaged(&pair.certificate, dice),
    }
    let mut lengths = hutsvida::PLACES;
    if dice.below(5) == 0 {
        let table = dice.below(6);
        lengths[table] = needs[table].saturating_sub(dice.below(2));
    }
    (pair, lengths)
}
