//! The declarations of `src`, and those of the C header, are those of the exported functions in `crates/wilbroged/src`. Nothing else compares
//! them: a linker sees names alone. The header's names have the values that they have in Rust, and the refusals their numbers and sentences
//! from the Rattle sources.
mod sources;

use sources::Refusal;
use std::collections::BTreeMap;
use wilbroged::Refused;

/// Name and type of each parameter, and the type of the result.
type Signature = (Vec<(String, String)>, String);

/// The signatures of the functions in `source` that are written `prefix NAME(PARAMETERS) -> RESULT`, up to one of the characters of
/// `end`.
fn signatures(source: &str, prefix: &str, end: &[char]) -> BTreeMap<String, Signature> {
    source
        .split(prefix)
        .skip(1)
        .map(|rest| {
            let (name, rest) = rest.split_once('(').expect("a parameter list");
            let (list, rest) = rest.split_once(')').expect("the end of a parameter list");
            let result = rest.split(end).next().unwrap().trim().trim_start_matches("->").trim();
            let parameters = list.split(',').map(str::trim).filter(|text| !text.is_empty()).map(|text| {
                let (name, kind) = text.split_once(':').expect("a parameter's type");
                (name.trim().to_string(), kind.trim().to_string())
            });
            (name.trim().to_string(), (parameters.collect(), result.to_string()))
        })
        .collect()
}

/// What C sees of a Rattle parameter: a slice is a pointer and a length, and a number that is written is a pointer.
fn in_c((name, kind): (String, String)) -> Vec<(String, String)> {
    let length = (format!("{name}_len"), "usize".to_string());
    match kind.as_str() {
        "&[u8]" => vec![(name, "*const u8".to_string()), length],
        "&mut [u8]" => vec![(name, "*mut u8".to_string()), length],
        "&mut u32" => vec![(name, "*mut u32".to_string())],
        "u8" | "u32" | "u64" | "usize" => vec![(name, kind)],
        _ => panic!("the parameter {name} of type {kind} has no rule here"),
    }
}

/// The part of a Rattle source without its comments.
fn without_comments(source: &str) -> String {
    source.lines().map(|line| line.split("//").next().unwrap()).collect::<Vec<_>>().join("\n")
}

/// The sources with an ending in a folder of the repository, one after the other, without their comments.
fn code_in(folder: &str, ending: &str) -> String {
    let files = sources::names(folder).into_iter().filter(|name| name.ends_with(ending));
    files.map(|name| without_comments(&sources::text(&format!("{folder}/{name}")))).collect::<Vec<_>>().join("\n")
}

/// The exported functions of the Rattle source, as C sees them.
fn exported() -> BTreeMap<String, Signature> {
    signatures(&code_in("crates/wilbroged/src", ".rt"), "pub extern \"C\" fn ", &['\n', '{'])
        .into_iter()
        .map(|(name, (parameters, result))| (name, (parameters.into_iter().flat_map(in_c).collect(), result)))
        .collect()
}

#[test]
fn declarations_match_the_rattle_source() {
    let rust = code_in("hosts/rust/src", ".rs");
    let blocks = rust.split("extern \"C\" {").skip(1).map(|block| block.split('}').next().unwrap());
    let declared: BTreeMap<_, Signature> = blocks.flat_map(|block| signatures(block, "fn ", &[';'])).collect();

    assert!(exported().contains_key("quark_permute") && exported().contains_key("quark_invert"));
    assert_eq!(declared, exported());
}

/// The C header.
fn header() -> String {
    sources::text("include/wilbroged.h")
}

/// A text in C without its comments.
fn without_c_comments(text: &str) -> String {
    text.split("/*").map(|part| part.split_once("*/").map_or(part, |(_, code)| code)).collect()
}

/// A type of the header, as Rust has it.
fn in_rust(kind: &str) -> String {
    match kind {
        "uint32_t" => "u32",
        "uint64_t" => "u64",
        "size_t" => "usize",
        "const uint8_t *" => "*const u8",
        "uint8_t *" => "*mut u8",
        "uint32_t *" => "*mut u32",
        _ => panic!("the type {kind} of the header has no rule here"),
    }
    .to_string()
}

/// `TYPE NAME` of the header: the name, and the type as Rust has it.
fn name_and_type(text: &str) -> (String, String) {
    let text = text.trim();
    let name = text.rfind([' ', '*']).expect("a type and a name") + 1;
    (text[name..].to_string(), in_rust(text[..name].trim()))
}

/// Every function but the one that answers a place is marked: a compiler warns where its answer is ignored.
#[test]
fn the_header_matches_the_rattle_source() {
    let code = without_c_comments(&header());
    let code: String = code.lines().filter(|line| !line.starts_with('#')).collect::<Vec<_>>().join("\n");
    let code = code.trim().strip_prefix("extern \"C\" {").unwrap().strip_suffix('}').unwrap();
    let prototypes = code.split(';').map(str::trim).filter(|text| !text.is_empty()).map(|prototype| {
        let (front, list) = prototype.split_once('(').expect("a parameter list");
        let list = list.strip_suffix(')').expect("the end of a parameter list");
        let marked = front.strip_prefix("WILBROGED_NODISCARD\n");
        let (name, result) = name_and_type(marked.unwrap_or(front));
        assert_eq!(marked.is_some(), name != "journal_refused_at", "the mark of {name}");
        (name, (list.split(',').map(name_and_type).collect(), result))
    });
    assert_eq!(prototypes.collect::<BTreeMap<String, Signature>>(), exported());
}

/// The names that the header defines as numbers or as text, without their prefix.
fn defined(header: &str) -> BTreeMap<&str, &str> {
    header
        .lines()
        .filter_map(|line| line.strip_prefix("#define WILBROGED_"))
        .filter_map(|definition| definition.split_once(' '))
        .filter(|(name, _)| *name != "NODISCARD")
        .collect()
}

/// Names of constants with their values, as they are written.
macro_rules! named {
    ($first:ident::{$($name:ident),* $(,)?}) => {
        [$((stringify!($name), $first::$name.to_string())),*]
    };
}

/// The refusals of Rust, by name.
fn refusals() -> BTreeMap<&'static str, String> {
    BTreeMap::from(named!(Refused::{
        UNKNOWN_INSTANCE, UNKNOWN_WIDTH, WRONG_LENGTH, COUNT_OVER_BYTES, TOTAL_OVER_LIMIT, WRONG_JOURNAL_LENGTH, BROKEN_LAYOUT,
        NOT_FOLLOWING, DIFFERENT_SEAL, BLANK_KEY, STEPS_OUT_OF_RANGE,
    }))
}

/// What the names of instances, widths, steps and lengths stand for is tried in `lengths.rs`.
#[test]
fn the_headers_values_are_those_of_rust() {
    let mut expected = refusals();
    expected.extend(named!(wilbroged::{
        U, U_BYTES, U_WIDTH, U_STEPS, D, D_BYTES, D_WIDTH, D_STEPS, S, S_BYTES, S_WIDTH, S_STEPS, L_ALL_ONES,
        KEY_BYTES, SEAL_BYTES, BODY_BYTES, RECORD_BYTES, LONGEST_JOURNAL_BYTES,
    }));
    expected.insert("ACCEPTED", "0".to_string());
    expected.insert("VERSION", format!("{:?}", env!("CARGO_PKG_VERSION")));
    let header = header();
    let found: BTreeMap<&str, String> = defined(&header).into_iter().map(|(name, value)| (name, value.to_string())).collect();
    assert_eq!(found, expected);
}

/// The refusals that no exported function answers: there is no state among the arguments, line 8 never holds, nothing is found by an index
/// or a name, no blocks are asked for, and no marks are lent.
const UNANSWERED: [&str; 9] = [
    "UNSOUND_STATE",
    "WRONG_PHASE",
    "PADDED_LENGTH",
    "NO_SUCH_RECORD",
    "BLOCKS_OUT_OF_RANGE",
    "EXTRA_OVER_LIMIT",
    "WRONG_MARK_BUFFER",
    "NO_SUCH_MARK",
    "NO_FREE_MARK",
];

/// The refusals of the Rattle sources that an exported function can answer.
fn answered() -> Vec<Refusal> {
    sources::refusals().into_iter().filter(|refusal| !UNANSWERED.contains(&refusal.constant().as_str())).collect()
}

/// The header lists the others by their numbers.
#[test]
fn the_header_names_the_numbers_that_are_never_answered() {
    let others = sources::refusals().into_iter().filter(|refusal| UNANSWERED.contains(&refusal.constant().as_str()));
    let numbers: Vec<String> = others.map(|refusal| refusal.number.to_string()).collect();
    assert_eq!(numbers.len(), UNANSWERED.len());
    let (last, first) = numbers.split_last().expect("a number");
    let sentence = format!("Numbers {} and {last} are never answered here.", first.join(", "));
    assert!(header().contains(&sentence), "the header has not '{sentence}'");
}

#[test]
fn the_refusals_are_those_of_the_rattle_sources() {
    let numbers: BTreeMap<String, String> =
        answered().into_iter().map(|refusal| (refusal.constant(), refusal.number.to_string())).collect();
    let named: BTreeMap<String, String> = refusals().into_iter().map(|(name, number)| (name.to_string(), number)).collect();
    assert_eq!(named, numbers);
}

/// A refusal has one sentence: what Rust prints, and the comment above its name in the Rattle source and in the header.
#[test]
fn the_refusals_have_one_sentence() {
    let header = header();
    for refusal in answered() {
        let name = refusal.constant();
        let Refusal { number, sentence, .. } = refusal;
        assert_eq!(Refused { number, place: None }.to_string(), format!("refusal {number}: {sentence}"));
        let lines = format!("\n/* {sentence} */\n#define WILBROGED_{name} {number}\n");
        assert!(header.contains(&lines), "the header has not {lines}");
    }
}
