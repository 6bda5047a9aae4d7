//! Reads formulas with the proved call and with the independent reading, in
//! dirty tables of random lengths, and compares answers, table contents and
//! every place beyond the need.

use outside::corpus::{self, Rng};
use outside::fixed;
use outside::reference;

extern "C" {
    fn hutsvida_read_formula(
        formula: *const u8,
        formula_length: usize,
        prefix: *mut i32,
        prefix_length: usize,
        matrix: *mut i32,
        matrix_length: usize,
    ) -> u64;
}

/// The proved call: number and line of a refusal, or 0 and 0.
fn read(formula: &[u8], prefix: &mut [i32], matrix: &mut [i32]) -> (u64, u64) {
    // The slices are lent for the call alone, each with its own length.
    let answer = unsafe {
        hutsvida_read_formula(
            formula.as_ptr(),
            formula.len(),
            prefix.as_mut_ptr(),
            prefix.len(),
            matrix.as_mut_ptr(),
            matrix.len(),
        )
    };
    (answer >> 32, answer & 0xffff_ffff)
}

/// A table of this length full of what any caller may have left.
fn dirty(rng: &mut Rng, length: usize) -> Vec<i32> {
    (0..length)
        .map(|_| match rng.below(5) {
            0 => 0,
            1 => i32::MIN,
            2 => i32::MAX,
            3 => rng.below(40) as i32 - 20,
            _ => rng.next() as i32,
        })
        .collect()
}

/// What the tables of a formula that was read hold in the places counted.
fn shown(formula: &[u8]) -> (Vec<i32>, Vec<i32>) {
    let (mut prefix, mut matrix, mut position) = (Vec::new(), Vec::new(), 0);
    for line in formula.split(|byte| *byte == 10) {
        let text = String::from_utf8_lossy(line);
        let tokens: Vec<&str> = text.split([' ', '\t', '\r']).filter(|token| !token.is_empty()).collect();
        let Some(first) = tokens.first() else { continue };
        match *first {
            word if word.starts_with('c') => {}
            "p" => prefix = vec![0; tokens[2].parse().unwrap()],
            "a" | "e" => {
                for token in &tokens[1..tokens.len() - 1] {
                    let variable: usize = token.parse().unwrap();
                    prefix[variable - 1] = 2 * position + if *first == "a" { 1 } else { 2 };
                    position += 1;
                }
            }
            _ => {
                for token in &tokens {
                    let literal: i32 = token.parse().unwrap();
                    matrix.push(2 * literal.abs() + i32::from(literal < 0));
                }
            }
        }
    }
    (prefix, matrix)
}

struct Run {
    rng: Rng,
    compared: u64,
    numbers: [u64; 16],
}

impl Run {
    fn compare(&mut self, name: &str, formula: &[u8], lengths: [usize; 2]) {
        let (verdict, needs) = reference::read_formula(formula, lengths);
        let before = [dirty(&mut self.rng, lengths[0]), dirty(&mut self.rng, lengths[1])];
        let [mut prefix, mut matrix] = before.clone();
        let found = read(formula, &mut prefix, &mut matrix);
        let expected = (verdict.number as u64, verdict.line as u64);
        assert_eq!(found, expected, "{name}: number and line, lengths {lengths:?}");
        for (table, after) in [&prefix, &matrix].into_iter().enumerate() {
            let end = needs[table].min(lengths[table]);
            assert_eq!(after[end..], before[table][end..], "{name}: table {table} beyond {end}");
        }
        if found.0 == 0 {
            let (p, m) = shown(formula);
            assert_eq!(prefix[..needs[0]], p[..], "{name}: prefix table");
            assert_eq!(matrix[..needs[1]], m[..], "{name}: matrix table");
        }
        self.compared += 1;
        self.numbers[found.0 as usize] += 1;
    }

    /// Tables of several lengths: wide, exact, and one place short.
    fn around(&mut self, name: &str, formula: &[u8]) {
        let wide = [5000, 1 << 18];
        self.compare(name, formula, wide);
        let (_, needs) = reference::read_formula(formula, wide);
        self.compare(name, formula, needs.map(|need| need.min(1 << 18)));
        for table in 0..2 {
            let mut lengths = wide;
            lengths[table] = needs[table].saturating_sub(1);
            self.compare(name, formula, lengths);
        }
        let some = [self.rng.below(12), self.rng.below(60)];
        self.compare(name, formula, some);
    }
}

/// Formulas at and beyond the limits.
fn borders() -> Vec<(String, Vec<u8>)> {
    let mut list: Vec<(String, Vec<u8>)> = Vec::new();
    for v in [0u32, 1, 4095, 4096, 4097] {
        let all: String = (1..=v.min(4096)).map(|x| format!("{x} ")).collect();
        let binding = if v == 0 { String::new() } else { format!("e {all}0\n") };
        list.push((format!("V {v}"), format!("p cnf {v} 1\n{binding}{} 0", v.min(1)).replace("\n0 0", "\n0").into_bytes()));
    }
    for c in [0usize, 1, 8191, 8192, 8193] {
        for clauses in [c.saturating_sub(1), c, c + 1] {
            list.push((format!("C {c} with {clauses}"), format!("p cnf 1 {c}\na 1 0\n{}", "1 -1 0\n".repeat(clauses)).into_bytes()));
        }
    }
    for text in [
        "", "\n", "c\n", "p cnf 0 0", "p cnf 0 0\r\n", "\tp\tcnf\t1\t1\t\ne 1 0\r\n1 0\r", "p cnf 1 1\ne 1 0\n1 0\0", "p cnf 1 1\ne 1 0\n\u{7f}1 0",
        "p cnf 123456789012345678901234567890 0", "p cnf 4 123456789012345678901234567890",
        "p cnf 1 1\ne 123456789012345678901234567890 0", "p cnf 1 1\ne 1 0\n123456789012345678901234567890 0",
        "p cnf 1 1\ne 1 0\n-123456789012345678901234567890 0", "p cnf 01 1", "p cnf +1 1", "p cnf -1 1", "p cnf -0 0", "p dnf 1 1", "p cn 1 1",
        "p cnff 1 1", "p cnf 1 1 c", "p cnf 4294967297 0", "p cnf 1 4294967296", "p cnf 2 1\ne 1 2 1 0\n1 0", "p cnf 2 1\ne 1 0\na 1 0\n1 0",
        "p cnf 2 1\ne 1 0\n2 0", "p cnf 2 1\ne 1 0\n1 1 1 1 -1 0", "p cnf 2 2\ne 1 0\n0\n0\n0", "p cnf 1 1\n1 0\ne 1 0",
    ] {
        list.push((format!("{text:?}"), text.as_bytes().to_vec()));
    }
    let mut bytes = b"p cnf 1 1\ne 1 0\n1 0".to_vec();
    for byte in [0u8, 13, 255, 11, 160] {
        for place in [0, 6, 9, 10, 12, 16, bytes.len()] {
            let mut changed = bytes.clone();
            changed.insert(place, byte);
            list.push((format!("byte {byte} at {place}"), changed));
        }
    }
    for length in [1_048_575usize, 1_048_576, 1_048_577] {
        bytes.resize(length, b' ');
        list.push((format!("{length} bytes"), bytes.clone()));
    }
    list
}

fn main() {
    let mut run = Run { rng: Rng::new(7), compared: 0, numbers: [0; 16] };
    for (name, formula) in borders() {
        run.around(&name, &formula);
    }
    for case in fixed::cases() {
        run.around(&case.name, &case.formula);
    }
    for index in 0..1500 {
        let case = corpus::case(11, index);
        run.around(&format!("corpus 11/{index}"), &case.formula);
    }
    for number in [0, 1, 2, 3, 4, 5, 6, 15] {
        assert!(run.numbers[number] >= 5, "number {number} occurred {} times", run.numbers[number]);
    }
    println!("formulas: {} readings compared, by number {:?}", run.compared, run.numbers);
}
