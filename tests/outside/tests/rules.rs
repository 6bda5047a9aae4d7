//! The rules of document 01 and of FERP: the twelve checks, the edges, the
//! calls.

use outside::ferp::{self, is_resolvent, Clause};
use outside::fixed::{self, Fixed};
use outside::reference::{self, check, is_false, line_bytes, read_formula, ENDLESS};
use outside::{ferp_fixed, Kind};

/// All fixed cases of both kinds.
fn cases() -> Vec<Fixed> {
    let mut list = fixed::cases();
    list.extend(ferp_fixed::cases());
    list
}

#[test]
fn twelve_checks() {
    let cases = fixed::twelve();
    assert_eq!(cases.len(), 12);
    for case in cases {
        let report = check(&case.formula, &case.certificate, case.lengths);
        assert_eq!(report.verdict.text(), case.expected, "{}", case.name);
        assert_eq!(reference::program(Some(&case.formula), Some(&case.certificate)), case.expected + "\n");
    }
}

#[test]
fn edges() {
    let mut wrong = Vec::new();
    let cases = cases();
    for case in &cases {
        let report = case.kind.check(&case.formula, &case.certificate, case.lengths);
        if report.verdict.text() != case.expected {
            wrong.push(format!("{}: {}, expected {}", case.name, report.verdict.text(), case.expected));
        }
        if case.needs.is_some_and(|needs| needs != report.needs) {
            wrong.push(format!("{}: needs {:?}, expected {:?}", case.name, report.needs, case.needs));
        }
    }
    println!("{} fixed cases", cases.len());
    assert!(wrong.is_empty(), "{}", wrong.join("\n"));
}

#[test]
fn every_number_has_a_fixed_case() {
    let cases = cases();
    for kind in Kind::ALL {
        for number in 1..=17 {
            let head = format!("refused,{number},");
            let found = cases.iter().any(|case| case.kind == kind && case.expected.starts_with(&head));
            assert_eq!(found, kind.numbers().contains(&number), "{} {number}", kind.name());
        }
    }
}

/// A FERP check in endless tables; `/` stands for byte 10.
fn ferp(formula: &str, certificate: &str) -> String {
    let [formula, certificate] = [formula, certificate].map(|text| text.replace('/', "\n"));
    ferp::check(formula.as_bytes(), certificate.as_bytes(), ENDLESS).verdict.text()
}

#[test]
fn figure_2_of_001_without_each_line() {
    let lines: Vec<&str> = ferp_fixed::FIGURE_2_FERP.split('/').filter(|line| !line.is_empty() && !line.starts_with('c')).collect();
    assert_eq!(lines.len(), 10);
    let expected = [
        // An expansion whose copy is not mapped.
        "refused,9,2,3,0,0,0",
        "refused,9,2,4,1,0,0",
        "refused,9,2,3,0,0,0",
        // A resolution whose parent is not there.
        "refused,16,2,7,3,0,0",
        "refused,16,2,7,3,0,0",
        "refused,16,2,8,3,1,0",
        "refused,16,2,9,3,2,0",
        "refused,16,2,8,4,0,0",
        "refused,16,2,9,4,1,0",
        "refused,14,2,0,4,2,0",
    ];
    for left_out in 0..lines.len() {
        let kept: Vec<&str> = (0..lines.len()).filter(|i| *i != left_out).map(|i| lines[i]).collect();
        assert_eq!(ferp(fixed::FIGURE_2, &kept.join("/")), expected[left_out], "without line {}", left_out + 1);
    }
}

#[test]
fn figure_2_of_001_with_other_parents() {
    // Line 6 (index 5) resolves on copy 1, line 7 on 3, line 8 on 2: no other two of the lines before do.
    let lines: Vec<&str> = ferp_fixed::FIGURE_2_FERP.split('/').filter(|line| !line.is_empty() && !line.starts_with('c')).collect();
    for (place, literals, right) in [(7, "2 3", [1, 2]), (8, "2", [5, 3]), (9, "", [6, 4])] {
        for one in 1..=8 {
            for other in 1..=8 {
                let mut changed: Vec<String> = lines.iter().map(|line| line.to_string()).collect();
                changed[place] = format!("{} {literals} 0 {one} {other} 0", place - 2);
                let found = ferp(fixed::FIGURE_2, &changed.join("/"));
                let fits = [one, other] == right || [other, one] == right;
                assert_eq!(found == "accepted,0,0,0,4,3,0", fits, "{one} {other}: {found}");
                assert!(fits || found == format!("refused,16,2,{},4,{},0", place + 1, place - 7), "{one} {other}: {found}");
            }
        }
    }
}

/// All clauses over two copies.
fn clauses() -> Vec<Clause> {
    let literals = [1, -1, 2, -2];
    (0..16).map(|bits| (0..4).filter(|i| bits >> i & 1 == 1).map(|i| literals[i]).collect()).collect()
}

/// A resolvent, literal by literal and with no set made: on copy v, with the
/// parents as they stand or turned.
fn resolves_by_literals(clause: &Clause, one: &Clause, other: &Clause) -> bool {
    let on = |p: &Clause, q: &Clause, v: i64| {
        let due = |l: i64| p.contains(&l) && l != v || q.contains(&l) && l != -v;
        p.contains(&v) && q.contains(&-v) && [1, -1, 2, -2].into_iter().all(|l| clause.contains(&l) == due(l))
    };
    [1, 2].into_iter().any(|v| on(one, other, v) || on(other, one, v))
}

#[test]
fn resolvents_over_two_copies() {
    let mut count = 0;
    for one in clauses() {
        for other in clauses() {
            for clause in clauses() {
                let found = is_resolvent(&clause, &one, &other);
                assert_eq!(found, resolves_by_literals(&clause, &one, &other), "{clause:?} of {one:?} and {other:?}");
                assert_eq!(found, is_resolvent(&clause, &other, &one));
                // True where its parents are.
                let holds = |c: &Clause, bits: i32| c.iter().any(|l| (bits >> (l.abs() - 1) & 1 == 1) == (*l > 0));
                let implied = (0..4).all(|bits| !holds(&one, bits) || !holds(&other, bits) || holds(&clause, bits));
                assert!(!found || implied, "{clause:?} of {one:?} and {other:?}");
                count += usize::from(found);
            }
        }
    }
    println!("{count} of 4096 are resolvents");
    assert!((100..400).contains(&count), "{count}");
}

#[test]
fn program_limits() {
    let formula = |length: usize| {
        let mut file = b"p cnf 0 1\n0\n".to_vec();
        file.resize(length, b' ');
        file
    };
    let certificate = |length: usize| {
        let mut file = b"e 0\n".to_vec();
        file.resize(length, 10);
        file
    };
    let run = |f: usize, c: usize| reference::program(Some(&formula(f)), Some(&certificate(c)));
    assert_eq!(run(16_384, 65_536), "accepted,0,0,0,1,0,0\n");
    assert_eq!(run(16_385, 65_536), "refused,1,1,0,0,0,0\n");
    assert_eq!(run(16_384, 65_537), "refused,1,2,0,0,0,0\n");
    assert_eq!(run(16_385, 65_537), "refused,1,1,0,0,0,0\n");
    assert_eq!(reference::program(None, None), "refused,2,1,0,0,0,0\n");
    assert_eq!(reference::program(Some(b"p cnf 0 1\n0"), None), "refused,14,2,0,0,0,0\n");
    // Tables of 16,384 places: copy 16,384 fits; a proof of 16,385 does not.
    assert_eq!(reference::program(Some(b"p cnf 0 0"), Some(b"16384 0")), "refused,14,2,0,0,1,0\n");
    let many = "1 0\n".repeat(8_193);
    assert_eq!(reference::program(Some(b"p cnf 0 0"), Some(many.as_bytes())), "refused,15,2,8193,0,8192,0\n");
}

#[test]
fn lines_of_files() {
    let (f, c) = (b"ab\n\ncd".as_slice(), b"x\ny\n".as_slice());
    // File, line: which file, start, end.
    let table = [
        ((1, 1), (1, 0, 2)),
        ((1, 2), (1, 3, 3)),
        ((1, 3), (1, 4, 6)),
        ((1, 4), (1, 6, 6)),
        ((1, 0), (1, 6, 6)),
        ((1, -1), (1, 6, 6)),
        ((1, i64::MAX), (1, 6, 6)),
        ((1, i64::MIN), (1, 6, 6)),
        ((2, 1), (2, 0, 1)),
        ((2, 2), (2, 2, 3)),
        ((2, 3), (2, 4, 4)),
        ((2, 4), (2, 4, 4)),
        ((2, 0), (2, 4, 4)),
        ((0, 1), (2, 0, 1)),
        ((3, 2), (2, 2, 3)),
        ((-1, 2), (2, 2, 3)),
        ((0, 0), (2, 4, 4)),
    ];
    for ((file, line), expected) in table {
        assert_eq!(line_bytes(f, c, file, line), expected, "file {file} line {line}");
    }
    assert_eq!(line_bytes(b"", b"", 1, 1), (1, 0, 0));
    assert_eq!(line_bytes(b"", b"", 2, 1), (2, 0, 0));
    assert_eq!(line_bytes(b"a\r\nb", b"", 1, 1), (1, 0, 2));
    assert_eq!(line_bytes(b"\n\n", b"", 1, 3), (1, 2, 2));
}

#[test]
fn formula_alone() {
    let text = |formula: &str, lengths| {
        let (verdict, needs) = read_formula(formula.as_bytes(), lengths);
        (verdict.text(), needs)
    };
    let a = "p cnf 2 2\na 1 0\ne 2 0\n1 2 0\n1 -2 0\n";
    assert_eq!(text(a, [2, 6]), ("accepted,0,0,0,0,0,0".into(), [2, 6]));
    assert_eq!(text(a, [1, 6]), ("refused,15,1,1,0,0,0".into(), [2, 0]));
    assert_eq!(text(a, [2, 5]), ("refused,15,1,5,0,0,0".into(), [2, 6]));
    assert_eq!(text("", [0, 0]), ("refused,2,1,0,0,0,0".into(), [0, 0]));
    assert_eq!(text("p cnf 3 1\n", [9, 9]), ("refused,6,1,0,0,0,0".into(), [3, 0]));
    assert_eq!(text("p cnf 3 1\n1 9", [9, 9]), ("refused,2,1,2,0,0,0".into(), [3, 0]));
    let long = vec![b'\n'; 1_048_577];
    assert_eq!(read_formula(&long, [0, 0]).0.text(), "refused,1,1,0,0,0,0");
}

#[test]
fn falsity() {
    let answer = |formula: &str| is_false(formula.replace('/', "\n").as_bytes());
    assert_eq!(answer(fixed::A), Some(true));
    assert_eq!(answer(fixed::FIGURE_2), Some(true));
    assert_eq!(answer(fixed::B), Some(false));
    assert_eq!(answer("p cnf 0 1/0"), Some(true));
    assert_eq!(answer("p cnf 2 2/a 1 0/e 2 0/1 2 0/-1 -2 0"), Some(false));
    assert_eq!(answer("p cnf 2 2/e 2 0/a 1 0/1 2 0/-1 -2 0"), Some(true));
    assert_eq!(answer("p cnf 1 1/a 1 0/1 -1 0"), Some(false));
    assert_eq!(answer("p cnf 1 1/a 1 0/1 0"), Some(true));
    assert_eq!(answer("p cnf 1 1/e 1 0/1 0"), Some(false));
    assert_eq!(answer("p cnf 5 0/a 1 2 0/e 3 0"), Some(false));
    assert_eq!(answer("p cnf 1 1/1 0"), None);
}

#[test]
fn figure_2_without_each_line() {
    // Every line of the published certificate is due, but for the hints.
    let formula = fixed::FIGURE_2.replace('/', "\n");
    let lines: Vec<&str> = fixed::FIGURE_2_PROOF.split('/').filter(|line| !line.is_empty()).collect();
    for left_out in 0..lines.len() {
        let kept: Vec<&str> = (0..lines.len()).filter(|i| *i != left_out).map(|i| lines[i]).collect();
        let report = check(formula.as_bytes(), kept.join("\n").as_bytes(), ENDLESS);
        let expected = match left_out {
            0 => "refused,9,2,4,0,0,0",
            1 => "refused,9,2,5,1,0,0",
            2 => "refused,9,2,4,0,0,0",
            3 => "accepted,0,0,0,4,1,0",
            // Without the first, the second takes its hint.
            4 | 5 | 6 => match left_out {
                4 => "refused,11,2,5,0,0,0",
                5 => "refused,11,2,6,1,0,0",
                _ => "refused,10,2,8,3,0,0",
            },
            7 => "refused,10,2,8,3,0,0",
            _ => "refused,14,2,0,4,0,0",
        };
        assert_eq!(report.verdict.text(), expected, "without line {}", left_out + 1);
    }
}
