//! The documents say what the sources have: docs/RULES.md each refusal with its number and its sentence, each operation's order of tests, the
//! instances and the layout of a body; docs/PROOFS.md the theorems, functions and must-fail edits by their names, every edit among them.
mod sources;

use sources::{names, refusals, text, Refusal};
use std::collections::BTreeSet;
use wilbroged::*;

const RULES: &str = "docs/RULES.md";
const PROOFS: &str = "docs/PROOFS.md";

/// The rows of the tables of a document, with the last heading before each; the rows that head a table are left out.
fn rows(document: &str) -> Vec<(String, Vec<String>)> {
    let (mut heading, mut rows) = (String::new(), Vec::new());
    let document = text(document);
    let lines: Vec<&str> = document.lines().collect();
    for (i, line) in lines.iter().enumerate() {
        if line.starts_with('#') {
            heading = line.trim_start_matches('#').trim().to_string();
        }
        let heads = lines.get(i + 1).is_some_and(|next| next.starts_with("|---"));
        if let Some(row) = line.trim_start().strip_prefix('|').filter(|row| !heads && !row.starts_with("---")) {
            let cells = row.trim_end().strip_suffix('|').expect("the end of a row").split('|').map(|cell| cell.trim().to_string());
            rows.push((heading.clone(), cells.collect()));
        }
    }
    rows
}

/// The rows of a document below a heading.
fn rows_below(document: &str, heading: &str) -> Vec<Vec<String>> {
    let found: Vec<_> = rows(document).into_iter().filter(|row| row.0 == heading).map(|row| row.1).collect();
    assert!(!found.is_empty(), "{document} has no table below '{heading}'");
    found
}

/// What stands in backticks in a text.
fn quoted(text: &str) -> Vec<&str> {
    text.split('`').skip(1).step_by(2).collect()
}

/// The numbers in a text; commas between digits are passed over.
fn numbers(text: &str) -> Vec<u32> {
    let digits = |part: &str| part.replace(',', "").parse().ok();
    text.split(|c: char| !c.is_ascii_digit() && c != ',').filter_map(digits).collect()
}

// ---- RULES.md

#[test]
fn rules_have_every_refusal() {
    let said = rows_below(RULES, "Refusals").into_iter().map(|row| Refusal {
        number: row[0].parse().unwrap(),
        name: quoted(&row[1])[0].to_string(),
        sentence: row[2].clone(),
    });
    assert_eq!(said.collect::<Vec<_>>(), refusals());
}

/// A comment of a definition that begins with a refusal's number goes on with its sentence.
#[test]
fn definitions_have_the_same_sentences() {
    let mut compared = 0;
    for name in names("crates") {
        for file in names(&format!("crates/{name}/specs")).iter().filter(|file| file.ends_with(".antt")) {
            for line in text(&format!("crates/{name}/specs/{file}")).lines() {
                let Some((number, sentence)) = line.trim_start().strip_prefix("-- ").and_then(|line| line.split_once(". ")) else {
                    continue;
                };
                let Ok(number) = number.parse::<u32>() else { continue };
                let refusal = refusals().into_iter().find(|refusal| refusal.number == number);
                assert_eq!(sentence, refusal.expect("a refusal").sentence, "crates/{name}/specs/{file}");
                compared += 1;
            }
        }
    }
    assert!(compared >= 20, "{compared} sentences");
}

const PERMUTE: &str = "permutation/specs/Permute";
const STEPS: &str = "permutation/specs/Steps";
const OUTCOMES: &str = "sponge/specs/Outcomes";
const LINES: &str = "records/specs/Lines";
const JOURNAL: &str = "journal/specs/Journal";

/// Lists of lines that definitions join: the name, and where it is defined. The lines of the succession are those of the rules in force.
const LISTS: [(&str, &str, &str); 6] = [
    ("front_lines", LINES, "front_lines"),
    ("layout_line", LINES, "layout_line"),
    ("succession_lines", "records/specs/Record", "today"),
    ("body_lines", LINES, "body_lines"),
    ("seal_line", LINES, "seal_line"),
    ("record_lines", LINES, "record_lines"),
];

/// The numbers in the lines of a definition, in their order: a line is `(.., NUMBER)`, and a list that is joined has its own. A number
/// that stands several times in a row is given once.
fn lines_of(module: &str, definition: &str) -> Vec<u32> {
    let source = text(&format!("crates/{module}.antt"));
    let from = ["unfoldable", "abbrev"].iter().find_map(|mark| Some(source.split_once(&format!("\n{mark} pub {definition} "))?.1));
    let body = from.and_then(|rest| rest.split_once('\n')?.1.split("\n\n").next());
    let body = body.unwrap_or_else(|| panic!("{module} has no {definition}"));
    // what stands left of the definition's own equals sign is its name and arguments
    let body = body.split_once(" =").expect("an equals sign").1;
    let number = |(end, _): (usize, &str)| Some((end, vec![body[..end].rsplit_once(", ")?.1.parse().ok()?]));
    let mut parts: Vec<(usize, Vec<u32>)> = body.match_indices(')').filter_map(number).collect();
    for (name, module, definition) in LISTS {
        parts.extend(body.match_indices(&format!("{name} ")).map(|(at, _)| (at, lines_of(module, definition))));
    }
    parts.sort();
    let mut found: Vec<u32> = parts.into_iter().flat_map(|part| part.1).collect();
    found.dedup();
    assert!(!found.is_empty(), "{module} has no lines in {definition}");
    found
}

/// Each operation, with the order in which it tests its refusals by the definitions that its contract names.
fn orders() -> Vec<(&'static str, Vec<u32>)> {
    let next = lines_of("journal/specs/Next", "next_number");
    vec![
        ("permute", lines_of(PERMUTE, "permute_number")),
        ("invert", lines_of(PERMUTE, "permute_number")),
        ("steps", lines_of(STEPS, "steps_number")),
        ("steps_back", lines_of(STEPS, "steps_number")),
        ("init", lines_of(OUTCOMES, "init_number")),
        ("absorb", lines_of(OUTCOMES, "absorb_number")),
        ("finish", lines_of(OUTCOMES, "finish_number")),
        ("squeeze", lines_of(OUTCOMES, "squeeze_number")),
        ("mark", lines_of(OUTCOMES, "mark_number")),
        ("recall", lines_of(OUTCOMES, "recall_number")),
        ("digest", lines_of(OUTCOMES, "digest_number")),
        ("seal", lines_of("records/specs/Sealing", "seal_number")),
        ("check", lines_of("records/specs/Check", "check_number")),
        ("verify", [lines_of(JOURNAL, "verify_number"), lines_of(JOURNAL, "record_number")].concat()),
        ("find", lines_of(JOURNAL, "find_number")),
        ("find_refusal", vec![]),
        ("Reader::next", next.clone()),
        ("next_at", next),
        ("report", vec![]),
    ]
}

#[test]
fn rules_have_every_order() {
    let rows = rows_below(RULES, "Operations, and the order of their tests");
    let said = rows.iter().flat_map(|row| {
        let order = numbers(&row[1].split(';').next().unwrap().replace(", ", " "));
        quoted(row[0].split(" of ").next().unwrap()).into_iter().map(move |operation| (operation, order.clone()))
    });
    assert_eq!(said.collect::<Vec<_>>(), orders());
}

/// The table of the instances: the bytes, the steps and the widest width are those of the names, and the rest follows from b and r.
#[test]
fn rules_have_the_instances() {
    let rows = rows_below(RULES, "Instances, widths, bits");
    let named = [(U, U_BYTES, U_WIDTH, U_STEPS), (D, D_BYTES, D_WIDTH, D_STEPS), (S, S_BYTES, S_WIDTH, S_STEPS)];
    assert_eq!(rows.len(), named.len());
    for (row, (number, bytes, width, steps)) in rows.iter().zip(named) {
        let cell = |i: usize| numbers(&row[i])[0];
        let (rate, b) = (reference::digest::rate_bytes(number) as u32 * 8, bytes as u32 * 8);
        assert_eq!((cell(0), cell(2), cell(3), cell(4)), (number, rate, b, bytes as u32));
        assert_eq!((cell(5), cell(5), cell(6)), (steps, 4 * b, b / rate));
        assert_eq!(numbers(&row[7].replace(", ", " ")).last(), Some(&width));
    }
}

/// Whether `seal` takes a body with these bytes from an offset on, and this kind.
fn takes(kind: u8, at: usize, bytes: &[u8]) -> bool {
    let mut body = [0; BODY_BYTES];
    (body[12], body[13]) = (kind, 1);
    body[at..at + bytes.len()].copy_from_slice(bytes);
    seal(&[1; KEY_BYTES], &[0; SEAL_BYTES], &body, &mut [0; RECORD_BYTES]).is_ok()
}

/// The tables of the body in the header and at Rust's `seal`: what stands in each line after the bytes.
fn body_tables() -> [Vec<(String, String)>; 2] {
    let (header, rust) = (text("include/wilbroged.h"), text("hosts/rust/src/journal.rs"));
    let of = |line: Option<(&str, &str)>| line.map(|(bytes, rest)| (bytes.to_string(), rest.trim().to_string()));
    [
        header.lines().filter_map(|line| of(line.strip_prefix(" *  ")?.trim().split_once(' '))).collect(),
        rust.lines().filter_map(|line| of(line.strip_prefix("/// | ")?.split_once(" | "))).collect(),
    ]
}

/// The table of the record: what a row allows is what `seal` takes, and the header and Rust have the same rows.
#[test]
fn rules_have_the_layout() {
    let mut next = 0;
    for row in rows_below(RULES, "The record") {
        let (bytes, field, allowed) = (&row[0], &row[1], &row[2]);
        let ends = numbers(&bytes.replace('-', " "));
        let (first, last) = (ends[0] as usize, ends[ends.len() - 1] as usize);
        assert_eq!(first, next, "the byte after the row before");
        next = last + 1;
        let zeros = vec![0; last - first + 1];
        let ones = vec![0xFF; last - first + 1];
        match (allowed.as_str(), &numbers(allowed)[..]) {
            ("-", _) => assert_eq!((first, last), (BODY_BYTES, RECORD_BYTES - 1)),
            ("any value", _) => assert!(takes(1, first, &zeros) && takes(1, first, &ones)),
            ("any value where the kind is 3, else 0", _) => {
                (1..=5).for_each(|kind| assert_eq!(takes(kind, first, &ones), kind == 3))
            }
            ("0", _) => {
                for at in first..=last {
                    assert!(takes(1, at, &[0]) && !takes(1, at, &[1]));
                }
            }
            (_, &[least, most]) => {
                for value in 0..=255 {
                    let lawful = (least..=most).contains(&value.into());
                    let taken = if first == 12 { takes(value, 14, &[0]) } else { takes(1, first, &[value]) };
                    assert_eq!(taken, lawful, "byte {first} is {value}");
                }
            }
            _ => panic!("what byte {first} may be is not understood: {allowed}"),
        }
        let range = if allowed.contains(" to ") && !field.contains(':') { allowed } else { "" };
        let field = if field == "none" { "zero" } else { field };
        for table in body_tables().iter().filter(|_| allowed != "-") {
            let line = table.iter().find(|line| line.0 == *bytes).unwrap_or_else(|| panic!("a table has no bytes {bytes}"));
            assert!(line.1.contains(field) && line.1.contains(range), "the bytes {bytes}: {}", line.1);
        }
    }
    assert_eq!(next, RECORD_BYTES);
}

// ---- PROOFS.md

/// The crate that a section is about: its heading begins with the crate's name in backticks.
fn crate_of(heading: &str) -> String {
    quoted(heading).first().unwrap_or_else(|| panic!("the heading '{heading}' names no crate")).to_string()
}

/// Whether a crate has a theorem, or a definition, MODULE.NAME, in its proofs or its specs.
fn has_theorem(name: &str, theorem: &str) -> bool {
    let Some((module, declared)) = theorem.split_once('.') else { return false };
    ["proofs", "specs"].iter().any(|folder| {
        let file = format!("crates/{name}/{folder}/{module}.antt");
        sources::path(&file).is_file()
            && text(&file).lines().any(|line| {
                let line = line.trim_start().trim_start_matches("unfoldable ").trim_start_matches("abbrev ");
                let Some(line) = line.strip_prefix("pub ") else { return false };
                let line = line.trim_start_matches("record ").trim_start_matches("data ");
                line.strip_prefix(declared).is_some_and(|rest| rest.starts_with([' ', ':']))
            })
    })
}

/// Whether a crate has a public function, by its name or its method's.
fn has_function(name: &str, function: &str) -> bool {
    names(&format!("crates/{name}/src")).iter().any(|file| {
        let source = text(&format!("crates/{name}/src/{file}"));
        ["pub fn ", "pub extern \"C\" fn "].iter().any(|prefix| {
            let found = |end: &str| source.contains(&format!("{prefix}{function}{end}"));
            found("(") || found("<")
        })
    })
}

/// The must-fail edits of a crate.
fn edits(name: &str) -> BTreeSet<String> {
    names(&format!("crates/{name}/must-fail")).iter().map(|file| file.strip_suffix(".edit").unwrap().to_string()).collect()
}

#[test]
fn proofs_name_what_is_there() {
    for (heading, row) in rows(PROOFS) {
        let name = crate_of(&heading);
        let [_, by, tried] = &row[..] else { panic!("a row of {} cells below '{heading}'", row.len()) };
        for said in quoted(by) {
            assert!(has_theorem(&name, said) || has_function(&name, said), "{name} has no {said}");
        }
        for edit in quoted(tried) {
            assert!(edits(&name).contains(edit), "{name} has no edit {edit}");
        }
    }
}

#[test]
fn proofs_name_every_edit() {
    let rows = rows(PROOFS);
    for name in names("crates") {
        let below = rows.iter().filter(|row| crate_of(&row.0) == name);
        let said: BTreeSet<String> = below.flat_map(|row| quoted(&row.1[2])).map(str::to_string).collect();
        assert_eq!(said, edits(&name), "the edits of {name}");
    }
}
