//! Whether a clause is the resolvent of two others, by marks: linear in the
//! three.

/// For each literal a number that says when it was seen last.
pub struct Marks {
    seen: Vec<u32>,
    now: u32,
}

/// The one literal of the parent that the clause does not hold, 0 if there is
/// none; nothing if there are several.
fn left_out(seen: &mut [u32], now: u32, parent: &[u32], found: &mut usize) -> Option<u32> {
    let mut left = 0;
    for &l in parent {
        let mark = &mut seen[l as usize];
        if *mark / 2 == now / 2 {
            *found += usize::from(*mark == now);
            *mark = now + 1;
        } else if l != left {
            if left != 0 {
                return None;
            }
            left = l;
        }
    }
    Some(left)
}

impl Marks {
    pub fn new(literals: usize) -> Marks {
        Marks { seen: vec![0; literals], now: 0 }
    }

    /// Whether c is d without v joined with e without -v, or the other way
    /// round, for some v that the one holds and -v that the other holds. So
    /// each literal of c is in d or e; besides those of c, d holds at most the
    /// one and e at most the other.
    pub fn resolves(&mut self, c: &[u32], d: &[u32], e: &[u32]) -> bool {
        self.now += 2;
        let mut distinct = 0;
        for &l in c {
            distinct += usize::from(self.seen[l as usize] != self.now);
            self.seen[l as usize] = self.now;
        }
        let mut found = 0;
        let Some(p) = left_out(&mut self.seen, self.now, d, &mut found) else { return false };
        let Some(q) = left_out(&mut self.seen, self.now, e, &mut found) else { return false };
        found == distinct
            && match (p, q) {
                (0, 0) => self.both_signs(d, e),
                // what is left out of the one parent alone stays by its negation, which both hold
                (l, 0) | (0, l) => d.contains(&(l ^ 1)) && e.contains(&(l ^ 1)),
                _ => p ^ 1 == q,
            }
    }

    /// Whether both clauses hold both signs of some copy.
    fn both_signs(&mut self, d: &[u32], e: &[u32]) -> bool {
        self.now += 2;
        for &l in d {
            self.seen[l as usize] = self.now;
        }
        for &l in e {
            let mark = &mut self.seen[l as usize];
            *mark += u32::from(*mark == self.now);
        }
        e.iter().any(|&l| self.seen[l as usize] == self.now + 1 && self.seen[l as usize ^ 1] == self.now + 1)
    }
}
