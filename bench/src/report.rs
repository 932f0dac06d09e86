//! The page that a run writes.
use crate::levels::{Levelled, Rule};
use crate::plants::Size;
use crate::reading::{Pair, Reading};
use crate::repairing::Repairing;
use crate::second::Second;
use crate::tightening::{self, Saved, Tightening};
use crate::time::Times;
use crate::writing::Writing;
use crate::{Growth, Measured, Page, Row, Skip, MISSION};
use std::fmt::Write;

/// The most that a call, a check, a reading, a writing, a repair or a tightening may take, in times of the plain one.
const MOST: f64 = 1.1;
/// The most that a check may take, in times of the plain one in two passes.
const MOST_OF_TWO_PASSES: f64 = 0.75;
/// The most that a call for any level or for a range may take, in times of that of the library before.
const MOST_OF_BEFORE: f64 = 1.02;

/// A number with commas.
fn commas(n: usize) -> String {
    let digits = n.to_string();
    let mut out = String::new();
    for (i, digit) in digits.chars().enumerate() {
        if i > 0 && (digits.len() - i) % 3 == 0 {
            out.push(',');
        }
        out.push(digit);
    }
    out
}

fn micro(seconds: f64) -> String {
    format!("{:.2}", seconds * 1e6)
}

/// The same to the nanosecond, for short calls.
fn nano(seconds: f64) -> String {
    format!("{:.3}", seconds * 1e6)
}

fn size(Size(n, terms, postings): Size) -> String {
    format!("{} devices, {} terms, {} postings", commas(n), commas(terms), commas(postings))
}

/// A table's head: its columns, numbers to the right.
fn head(columns: &[&str]) -> String {
    format!("\n| {} |\n|---|{}\n", columns.join(" | "), "--:|".repeat(columns.len() - 1))
}

/// The mean of the kinds whose terms were chosen so; of all where that is left open.
fn mean(m: &Measured, common: Option<bool>) -> Times {
    let rows = m.rows.iter().filter(|r| common.is_none_or(|c| c == r.common));
    Times::mean(&rows.map(|r| r.times).collect::<Vec<_>>())
}

/// One plant's figures: proved against plain, then each kind of query in all ways.
fn figures(m: &Measured) -> String {
    let mut out = format!("\n### At {}: {}\n", m.name, size(m.size));
    out += &head(&["", "plain µs", "proved µs", "proved / plain"]);
    let (all, common, any) = (mean(m, None), mean(m, Some(true)), mean(m, Some(false)));
    for (name, plain, proved) in [
        ("the check alone", m.check.plain, m.check.proved),
        ("the check alone, plain in two passes", m.check.two_passes, m.check.proved),
        ("the call whole, all queries", all.plain_call, all.call),
        ("the steps alone, common terms", common.plain_steps, common.steps),
        ("the steps alone, terms equally likely", any.plain_steps, any.steps),
    ] {
        writeln!(out, "| {name} | {} | {} | **{:.2}** |", micro(plain), micro(proved), proved / plain).unwrap();
    }
    for common in [true, false] {
        let how = if common { "Common terms: each is as likely as its list is long" } else { "Terms all equally likely" };
        writeln!(out, "\n{how}.").unwrap();
        let peers = ["unshared", "CRoaring", "CRoaring in the call", "SQLite"];
        out += &head(&[&["query", "call, plain µs", "proved", "steps, plain µs", "proved"], &peers[..]].concat());
        for row in m.rows.iter().filter(|r| r.common == common) {
            out += &line(row.kind.0, &row.times);
        }
        out += &line("all", &mean(m, Some(common)));
    }
    out += "\nA call of the steps again, right after the first and with no check between:\n";
    out += &head(&["terms", "plain µs", "CRoaring µs", "CRoaring / plain"]);
    for (name, t) in [("common", common), ("any", any)] {
        let ratio = t.roaring_again / t.plain_again;
        writeln!(out, "| {name} | {} | {} | {ratio:.2} |", micro(t.plain_again), micro(t.roaring_again)).unwrap();
    }
    out
}

fn line(name: &str, t: &Times) -> String {
    let ratio = |seconds: f64| format!("{:.2}", seconds / t.plain_steps);
    let call = format!("{} | {:.2}", micro(t.plain_call), t.call / t.plain_call);
    let steps = [t.steps, t.unshared, t.roaring, t.roaring_in_call, t.sqlite].map(ratio).join(" | ");
    format!("| {name} | {call} | {} | {steps} |\n", micro(t.plain_steps))
}

fn terms(common: bool) -> &'static str {
    if common {
        "common"
    } else {
        "any"
    }
}

/// The goals of one plant, each with its ratio and whether it was met.
fn goals(m: &Measured) -> String {
    let mut out = format!("\n### Goals at {}: {}\n", m.name, size(m.size));
    out += &head(&["the check alone", "ratio", "at most", "goal"]);
    let in_two_passes = ("proved / plain in two passes", m.check.two_passes, MOST_OF_TWO_PASSES);
    for (name, plain, most) in [in_two_passes, ("proved / plain", m.check.plain, MOST)] {
        let ratio = m.check.proved / plain;
        writeln!(out, "| {name} | {ratio:.2} | {most:.2} | {} |", met(ratio, most)).unwrap();
    }
    let steps = [
        "steps, proved / CRoaring in the call",
        "steps, proved / CRoaring",
        "steps, proved / CRoaring again",
        "steps, proved / SQLite",
    ];
    out += &head(&[&["query", "terms", "call, proved / plain"], &steps[..]].concat());
    for Row { kind, common, times, .. } in &m.rows {
        out += &goal(kind.0, terms(*common), times);
    }
    out += &goal("all", "common", &mean(m, Some(true)));
    out += &goal("all", "any", &mean(m, Some(false)));
    out += &goal("**all**", "**both**", &mean(m, None));
    out
}

fn met(ratio: f64, most: f64) -> &'static str {
    if ratio <= most {
        "met"
    } else {
        "**missed**"
    }
}

fn goal(query: &str, terms: &str, t: &Times) -> String {
    let against = |peer: f64| match t.steps / peer {
        r if r <= 0.0 => String::from("lost in noise"),
        r if r < 1.0 => format!("{r:.2} ahead"),
        r => format!("{r:.2} **behind**"),
    };
    let call = t.call / t.plain_call;
    let steps = [t.roaring_in_call, t.roaring, t.roaring_again, t.sqlite].map(against).join(" | ");
    format!("| {query} | {terms} | {call:.2} {} | {steps} |\n", met(call, MOST))
}

/// How the check grows with the tables, and the steps with what their moves skip.
fn growing(growth: &[Growth], skips: &[Skip]) -> String {
    let mut out = String::from("\n### Goals for growth\n");
    out += &head(&["", "grew", "proved time grew", "plain time grew"]);
    let (a, b) = (&growth[0], &growth[growth.len() - 1]);
    let grew = (b.size.0 + b.size.2) as f64 / (a.size.0 + a.size.2) as f64;
    let times = [grew, b.proved / a.proved, b.plain / a.plain].map(|x| format!("{x:.1} times")).join(" | ");
    writeln!(out, "| the check, as the tables grow | {times} |").unwrap();
    let (a, b) = (&skips[0], &skips[skips.len() - 1]);
    let grew = b.long as f64 / a.long as f64;
    let times = [grew, b.proved / a.proved, b.plain / a.plain].map(|x| format!("{x:.1} times")).join(" | ");
    writeln!(out, "| the steps, as the list that moves skip grows | {times} |").unwrap();
    out
}

fn percent(a: usize, b: usize) -> String {
    format!("{:.0}%", 100.0 * a as f64 / b as f64)
}

/// Document 000's figures: what sharing saves.
fn sharing(m: &Measured) -> String {
    let mut out = format!("\n### Sharing at {}: {}\n", m.name, size(m.size));
    let kept = percent(m.size.2, m.unshared_postings);
    writeln!(out, "\nUnshared there are {} postings: shared are **{kept}** of them.", commas(m.unshared_postings)).unwrap();
    out += &head(&["query", "terms", "queries", "devices listed", "moves, shared", "moves, unshared", "shared of unshared"]);
    for Row { kind, common, queries, moves, .. } in &m.rows {
        let numbers = [*queries as u64, moves.listed, moves.shared, moves.unshared].map(|n| commas(n as usize)).join(" | ");
        let ratio = percent(moves.shared as usize, moves.unshared as usize);
        writeln!(out, "| {} | {} | {numbers} | {ratio} |", kind.0, terms(*common)).unwrap();
    }
    out
}

/// Reading, the whole job and printing, proved against plain, and beside a pass over the bytes.
pub fn reading(of: Size, r: &Reading, printing: Pair) -> String {
    let mut out = String::from("\n## Reading, and the whole job\n\n");
    let (plant, query) = (commas(r.plant_bytes), r.query_bytes);
    writeln!(out, "At the mission's size: {}. A plant text has {plant} bytes, a query text {query}.", size(of)).unwrap();
    out += &head(&["", "plain µs", "proved µs", "proved / plain"]);
    for (name, Pair { plain, proved }) in [
        ("reading a plant", r.plant),
        ("reading a query", r.query),
        ("the whole job: `respond`", r.respond),
        ("the whole job, plain without its check", Pair { plain: r.unchecked, ..r.respond }),
        ("listing and printing 1,024 devices", printing),
    ] {
        writeln!(out, "| {name} | {} | {} | **{:.2}** |", micro(plain), micro(proved), proved / plain).unwrap();
    }
    out += "\nOne pass over the bytes of the plant text that counts line feeds, in one byte after the other:\n";
    out += &head(&["pass", "reading, plain / pass", "reading, proved / pass", "`respond`, proved / pass"]);
    let ratios = [r.plant.plain, r.plant.proved, r.respond.proved].map(|s| format!("{:.2}", s / r.pass)).join(" | ");
    writeln!(out, "| {} µs | {ratios} |", micro(r.pass)).unwrap();
    out
}

fn reading_goal(r: &Reading) -> String {
    let mut out = String::from("\n### Goal for reading\n");
    out += &head(&["at the mission's size", "ratio", "at most", "goal"]);
    let ratio = r.plant.proved / r.plant.plain;
    writeln!(out, "| reading a plant, proved / plain | {ratio:.2} | {MOST:.2} | {} |", met(ratio, MOST)).unwrap();
    out
}

/// The two rows of writing: what is timed, and its seconds.
fn rows_of_writing(w: &Writing) -> [(&'static str, Pair); 2] {
    [("writing a plant", w.write), ("writing a plant and reading it back", w.back)]
}

/// Writing, and reading back what was written, proved against plain.
pub fn writing(written: &[Writing]) -> String {
    let mut out = String::from("\n## Writing, and reading back\n\n");
    out += "The same eight plants, and eight with nearly as many postings as a text of 65,536 bytes has room for.\n";
    out += &head(&["", "postings", "bytes", "plain µs", "proved µs", "proved / plain"]);
    for w in written {
        for (name, Pair { plain, proved }) in rows_of_writing(w) {
            let times = format!("{} | {} | **{:.2}**", micro(plain), micro(proved), proved / plain);
            writeln!(out, "| {name} | {} | {} | {times} |", commas(w.size.2), commas(w.bytes)).unwrap();
        }
    }
    out
}

fn writing_goals(written: &[Writing]) -> String {
    let mut out = String::from("\n### Goals for writing\n");
    out += &head(&["", "bytes", "ratio", "at most", "goal"]);
    for w in written {
        for (name, Pair { plain, proved }) in rows_of_writing(w) {
            let ratio = proved / plain;
            let goal = format!("{ratio:.2} | {MOST:.2} | {}", met(ratio, MOST));
            writeln!(out, "| {name}, proved / plain | {} | {goal} |", commas(w.bytes)).unwrap();
        }
    }
    out
}

/// Repairing, proved against plain.
pub fn repairing(repaired: &[Repairing]) -> String {
    let mut out = String::from("\n## Repairing lists with doubled postings\n\n");
    out += "A fifth of the postings was put into the lists of sound plants: devices up to eight times, private and shared, and ";
    out += "devices inside shared branches. From a clean plant nothing is dropped.\n";
    out += &head(&["", "postings", "dropped", "plain µs", "proved µs", "proved / plain"]);
    for Repairing { name, size, dropped, repair: Pair { plain, proved } } in repaired {
        let times = format!("{} | {} | **{:.2}**", micro(*plain), micro(*proved), proved / plain);
        writeln!(out, "| {name} | {} | {} | {times} |", commas(size.2), commas(*dropped)).unwrap();
    }
    out
}

fn repairing_goals(repaired: &[Repairing]) -> String {
    let mut out = String::from("\n### Goals for repairing\n");
    out += &head(&["repairing, proved / plain", "dropped", "ratio", "at most", "goal"]);
    for Repairing { name, dropped, repair: Pair { plain, proved }, .. } in repaired {
        let ratio = proved / plain;
        writeln!(out, "| {name} | {} | {ratio:.2} | {MOST:.2} | {} |", commas(*dropped), met(ratio, MOST)).unwrap();
    }
    out
}

/// Tightening, proved against plain, and what it saves.
pub fn tightening(tightened: &[Tightening], saved: &[Saved]) -> String {
    let mut out = String::from("\n## Tightening\n\n");
    out += "Branches of 3 to 40 devices were noted device by device, a quarter of them but for one device. In tight lists there ";
    out += "is nothing to gather.\n";
    out += &head(&["", "postings", "tightened", "plain µs", "proved µs", "proved / plain"]);
    for Tightening { name, before, after, tighten: Pair { plain, proved } } in tightened {
        let times = format!("{} | {} | **{:.2}**", micro(*plain), micro(*proved), proved / plain);
        writeln!(out, "| {name} | {} | {} | {times} |", commas(*before), commas(*after)).unwrap();
    }
    saved.iter().for_each(|s| out += &savings(s));
    out
}

/// What tightening saves: postings, and moves.
fn savings(s: &Saved) -> String {
    let mut out = format!("\n### What tightening saves at {}: {}\n", s.name, size(s.size));
    let kept = percent(s.after, s.size.2);
    writeln!(out, "\nTightened there are {} postings: **{kept}** of those before.", commas(s.after)).unwrap();
    out += &head(&["query", "terms", "queries", "devices listed", "moves, before", "moves, tightened", "tightened of before"]);
    for tightening::Row { kind, common, queries, listed, before, after } in &s.rows {
        let numbers = [*queries, *listed as usize, *before as usize, *after as usize].map(commas).join(" | ");
        let ratio = percent(*after as usize, *before as usize);
        writeln!(out, "| {} | {} | {numbers} | {ratio} |", kind.0, terms(*common)).unwrap();
    }
    out
}

fn tightening_goals(tightened: &[Tightening]) -> String {
    let mut out = String::from("\n### Goals for tightening\n");
    out += &head(&["tightening, proved / plain", "postings saved", "ratio", "at most", "goal"]);
    for Tightening { name, before, after, tighten: Pair { plain, proved } } in tightened {
        let ratio = proved / plain;
        writeln!(out, "| {name} | {} | {ratio:.2} | {MOST:.2} | {} |", commas(before - after), met(ratio, MOST)).unwrap();
    }
    out
}

/// What the same notes in two indexes cost.
pub fn second(rows: &[Second]) -> String {
    let mut out = String::from("\n## A second index\n\n");
    out += "The call whole, over the notes in one index and in two: every fourth term was put into the second with its list, ";
    out += "its number 32,768 higher. The moves, those of all queries together, are the same.\n";
    let in_second = ["", "terms in the second", "postings in the second", "moves"];
    let times = ["one index, plain µs", "proved µs", "two, plain µs", "proved µs", "two, proved / plain", "proved, two / one"];
    out += &head(&[&in_second[..], &times[..]].concat());
    for Second { name, moved: [terms, postings], moves, one, two } in rows {
        let numbers = [*terms, *postings, *moves as usize].map(commas).join(" | ");
        let times = [one.plain, one.proved, two.plain, two.proved].map(nano).join(" | ");
        let ratios = format!("**{:.2}** | {:.2}", two.proved / two.plain, two.proved / one.proved);
        writeln!(out, "| {name} | {numbers} | {times} | {ratios} |").unwrap();
    }
    out
}

/// The goals are for the two sizes, and not for the small plant.
fn second_goals(rows: &[Second]) -> String {
    let mut out = String::from("\n### Goals for a second index\n");
    out += &head(&["a call over two indexes, proved / plain", "ratio", "at most", "goal"]);
    for Second { name, two: Pair { plain, proved }, .. } in rows {
        let ratio = proved / plain;
        writeln!(out, "| {name} | {ratio:.2} | {MOST:.2} | {} |", met(ratio, MOST)).unwrap();
    }
    out
}

/// What the level rule lists and costs.
pub fn levels(rows: &[Levelled]) -> String {
    let mut out = String::from("\n## The level rule\n\n");
    out += "The same queries at any level, at true levels only, which is what no level line means, and at levels 100 to 140. ";
    out += "The moves, those of all queries together, are the same, and so are the position and what the moves pass over.\n";
    out += &head(&["devices listed", "moves", "any level", "true levels only", "levels 100 to 140"]);
    for Levelled { name, moves, any, true_only, range } in rows {
        let numbers = [*moves, any.listed, true_only.listed, range.listed].map(|n| commas(n as usize)).join(" | ");
        writeln!(out, "| {name} | {numbers} |").unwrap();
    }
    out += "\nWhat leaving out devices without a true level costs:\n";
    let times = ["any level, plain µs", "proved µs", "true levels only, plain µs", "proved µs"];
    out += &head(&[&[""], &times[..], &["plain, true / any", "proved, true / any"]].concat());
    // the steps over the small plant are too short for the clock
    for row in &rows[1..] {
        out += &cost(row, "the call", |rule| rule.call);
        out += &cost(row, "the steps", |rule| rule.steps);
    }
    out + &beside_before(rows)
}

fn cost(row: &Levelled, what: &str, of: fn(&Rule) -> Pair) -> String {
    let [any, only] = [&row.any, &row.true_only].map(of);
    let times = [any.plain, any.proved, only.plain, only.proved].map(nano).join(" | ");
    let ratios = [only.plain / any.plain, only.proved / any.proved].map(|ratio| format!("**{ratio:.2}**")).join(" | ");
    format!("| {}, {what} | {times} | {ratios} |\n", row.name)
}

/// The calls that the library before has too, beside its own.
fn beside_before(rows: &[Levelled]) -> String {
    let calls = calls_beside(rows);
    if calls.is_empty() {
        return String::new();
    }
    let mut out =
        String::from("\nThe calls for any level and for a range, and those of the library before, both linked alike:\n");
    out += &head(&["", "before µs", "now µs", "now / before"]);
    for (name, [before, now]) in calls {
        writeln!(out, "| {name} | {} | {} | **{:.3}** |", nano(before), nano(now), now / before).unwrap();
    }
    out
}

/// The calls that have a time of the library before: their names, that time, and today's beside it.
fn calls_beside(rows: &[Levelled]) -> Vec<(String, [f64; 2])> {
    let rules = rows.iter().flat_map(|row| [(row.name, "any level", &row.any), (row.name, "levels 100 to 140", &row.range)]);
    rules.filter_map(|(name, levels, rule)| Some((format!("{name}, {levels}"), rule.beside?))).collect()
}

fn levels_goals(rows: &[Levelled]) -> String {
    let calls = calls_beside(rows);
    if calls.is_empty() {
        return String::new();
    }
    let mut out = String::from("\n### Goals for the level rule\n");
    out += &head(&["a call, now / before", "ratio", "at most", "goal"]);
    for (name, [before, now]) in calls {
        let ratio = now / before;
        writeln!(out, "| {name} | {ratio:.3} | {MOST_OF_BEFORE:.2} | {} |", met(ratio, MOST_OF_BEFORE)).unwrap();
    }
    out
}

fn tables_grow(growth: &[Growth]) -> String {
    let mut out = String::from("\n## The check grows with the tables\n");
    out += &head(&["tables", "plain µs", "proved µs", "proved / plain", "proved, ns for each device and posting"]);
    for Growth { size: s, proved, plain } in growth {
        let each = proved * 1e9 / (s.0 + s.2) as f64;
        let times = format!("{} | {} | {:.2}", micro(*plain), micro(*proved), proved / plain);
        writeln!(out, "| {} | {times} | {each:.2} |", size(*s)).unwrap();
    }
    out
}

fn moves_skip(skips: &[Skip]) -> String {
    let mut out = String::from("\n## What a move skips\n\n");
    out += "Of 65,535 devices a term is on 64 and another on more and more, and both are required: ";
    out += "what each move skips grows, and how many moves there are does not.\n";
    out += &head(&["postings of the long list", "moves", "passed", "steps, plain µs", "steps, proved µs", "proved / plain"]);
    for Skip { long, moves, passed, proved, plain } in skips {
        let times = format!("{} | {} | {:.2}", micro(*plain), micro(*proved), proved / plain);
        writeln!(out, "| {} | {moves} | {} | {times} |", commas(*long), commas(*passed as usize)).unwrap();
    }
    out
}

pub fn whole(page: &Page) -> String {
    let all = |each: fn(&Measured) -> String| page.measured.iter().map(each).collect::<String>();
    let mut out = String::from(include_str!("../before.md"));
    out += &all(figures);
    out += &reading(MISSION, &page.reading, page.printing);
    out += &writing(&page.written);
    out += &repairing(&page.repaired);
    out += &tightening(&page.tightened, &page.saved);
    out += &second(&page.second);
    out += &levels(&page.levels);
    out += &tables_grow(&page.growth);
    out += &moves_skip(&page.skips);
    out += "\n## Sharing: the figures of document 000\n\n";
    out += "Unshared, every device that carries a term has a posting of its own, and the moves are those of an ordinary zig-zag ";
    out += "join. Each row has the moves of all its queries together.\n";
    out += &all(sharing);
    out += "\n";
    let mut goals = all(goals) + &reading_goal(&page.reading) + &writing_goals(&page.written);
    goals += &(repairing_goals(&page.repaired) + &tightening_goals(&page.tightened) + &second_goals(&page.second[1..]));
    goals += &(levels_goals(&page.levels) + &growing(&page.growth, &page.skips));
    out += &include_str!("../after.md").replace("{goals}", goals.trim());
    out
}
