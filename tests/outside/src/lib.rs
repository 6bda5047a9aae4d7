//! An independent checker of FERAT and FERP certificates and the corpus to
//! compare another one with. Everything here was written from documents 01
//! and 02 and source document 001 alone.

pub mod boundary;
pub mod corpus;
pub mod ferp;
pub mod ferp_corpus;
pub mod ferp_fixed;
pub mod fixed;
pub mod reference;

/// The kinds of certificates.
#[derive(Clone, Copy, Debug, PartialEq, Eq)]
pub enum Kind {
    Ferat,
    Ferp,
}

impl Kind {
    pub const ALL: [Kind; 2] = [Kind::Ferat, Kind::Ferp];

    /// Its number in a list of checks.
    pub fn number(self) -> u32 {
        match self {
            Kind::Ferat => 1,
            Kind::Ferp => 2,
        }
    }

    /// The kind that a number in a list of checks names.
    pub fn named(number: u32) -> Option<Kind> {
        Kind::ALL.into_iter().find(|kind| kind.number() == number)
    }

    /// The ending of a stored file's name, and the command's verb.
    pub fn name(self) -> &'static str {
        match self {
            Kind::Ferat => "ferat",
            Kind::Ferp => "ferp",
        }
    }

    /// The numbers that its verdicts can have.
    pub fn numbers(self) -> Vec<usize> {
        match self {
            Kind::Ferat => (0..=15).collect(),
            Kind::Ferp => (0..=9).chain([11]).chain(14..=17).collect(),
        }
    }

    pub fn check(self, formula: &[u8], certificate: &[u8], lengths: [usize; 6]) -> reference::Report {
        match self {
            Kind::Ferat => reference::check(formula, certificate, lengths),
            Kind::Ferp => ferp::check(formula, certificate, lengths),
        }
    }
}
