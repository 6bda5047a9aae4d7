//! The files, of 1 MB each, from a fixed seed.

pub const BYTES: usize = 1 << 20;

/// Numbers that follow from a seed (xorshift).
pub struct Dice(pub u64);

impl Dice {
    pub fn below(&mut self, n: u64) -> u64 {
        self.0 ^= self.0 << 13;
        self.0 ^= self.0 >> 7;
        self.0 ^= self.0 << 17;
        (self.0 >> 11) % n
    }

    fn pick(&mut self, from: &[u8]) -> u8 {
        from[self.below(from.len() as u64) as usize]
    }
}

fn fill(mut line: impl FnMut(&mut Dice) -> Vec<u8>) -> Vec<u8> {
    let mut dice = Dice(88_172_645_463_325_252);
    let mut file = Vec::new();
    loop {
        let more = line(&mut dice);
        if file.len() + more.len() > BYTES {
            return file;
        }
        file.extend(more);
    }
}

fn bytes(dice: &mut Dice, start: &[u8], from: &[u8]) -> Vec<u8> {
    let n = 10 + dice.below(61);
    let mut line = start.to_vec();
    line.extend((0..n).map(|_| dice.pick(from)));
    line.push(b'\n');
    line
}

fn clause(dice: &mut Dice, n: u64, blank: &str, end: &str) -> Vec<u8> {
    let mut line = String::new();
    for _ in 0..n {
        let sign = if dice.below(2) == 0 { "-" } else { "" };
        line += &format!("{sign}{}{blank}", 1 + dice.below(4096));
    }
    line += &format!("0{end}");
    line.into_bytes()
}

fn long(start: &[u8], byte: u8) -> Vec<u8> {
    let mut file = start.to_vec();
    file.resize(BYTES - 1, byte);
    file.push(b'\n');
    file
}

fn some(dice: &mut Dice) -> u64 {
    3 + dice.below(10)
}

pub fn all() -> Vec<(&'static str, Vec<u8>)> {
    let letters = b"abcdefghijklmnopqrstuvwxyz 0123456789-";
    vec![
        ("comments, lines of 12 to 72 bytes", fill(|dice| bytes(dice, b"c ", letters))),
        ("comments, one line", long(b"c ", b'x')),
        ("numbers, lines of 4 to 13", fill(|dice| { let n = some(dice); clause(dice, n, " ", "\n") })),
        ("numbers, lines of 20,000", fill(|dice| clause(dice, 20_000, " ", "\n"))),
        ("blanks, lines of 10 to 70, a quarter tabs", fill(|dice| bytes(dice, b"", b"   \t"))),
        ("blanks, one line", long(b" ", b' ')),
        ("(numbers, byte 13 before byte 10)", fill(|dice| { let n = some(dice); clause(dice, n, " ", "\r\n") })),
        ("(numbers, three spaces between)", fill(|dice| { let n = some(dice); clause(dice, n, "   ", "\n") })),
        ("(numbers, tabs between)", fill(|dice| { let n = some(dice); clause(dice, n, "\t", "\n") })),
        ("(empty lines)", vec![b'\n'; BYTES]),
    ]
}

/// A part of the file with some bytes changed.
pub fn damaged(file: &[u8], dice: &mut Dice) -> Vec<u8> {
    let start = dice.below(file.len() as u64) as usize;
    let end = (start + dice.below(2000) as usize).min(file.len());
    let mut part = file[start..end].to_vec();
    for _ in 0..dice.below(12) {
        if !part.is_empty() {
            let i = dice.below(part.len() as u64) as usize;
            part[i] = if dice.below(4) == 0 { dice.below(256) as u8 } else { dice.pick(b"0123456789-- \t\r\nc+x") };
        }
    }
    part
}
