//! Queries as texts.
use crate::paper::{Levels, Query};
use std::fmt::Write;

/// The query text of a query.
pub fn query(q: &Query) -> Vec<u8> {
    let mut out = String::from("(ask\n");
    for (word, terms) in [("need", &q.required), ("not", &q.forbidden)] {
        for term in terms {
            writeln!(out, "({word} {term})").unwrap();
        }
    }
    match q.levels {
        Levels::Any => out += "(level any)\n",
        Levels::TrueOnly => (),
        Levels::Range(low, high) => writeln!(out, "(level {low} {high})").unwrap(),
    }
    writeln!(out, "(from {})\n(moves {})\n)", q.start, q.budget).unwrap();
    out.into_bytes()
}
