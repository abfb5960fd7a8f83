//! Shared by tests: texts of the repository.
use std::fs;
use std::path::PathBuf;

/// A path below the repository's root.
pub fn path(below: &str) -> PathBuf {
    PathBuf::from(concat!(env!("CARGO_MANIFEST_DIR"), "/../..")).join(below)
}

/// A text of the repository.
pub fn text(below: &str) -> String {
    fs::read_to_string(path(below)).unwrap_or_else(|error| panic!("{below}: {error}"))
}

/// The names in a folder of the repository, sorted; none where the folder is missing.
pub fn names(below: &str) -> Vec<String> {
    let entries = fs::read_dir(path(below)).into_iter().flatten();
    let mut names: Vec<_> = entries.map(|entry| entry.unwrap().file_name().into_string().unwrap()).collect();
    names.sort();
    names
}

/// A refusal as the Rattle sources have it: its number, the name of its line, and the sentence of the comment above that.
#[derive(Clone, Debug, PartialEq, Eq, PartialOrd, Ord)]
pub struct Refusal {
    pub number: u32,
    pub name: String,
    pub sentence: String,
}

impl Refusal {
    /// The name as the header and Rust write it: `UnknownInstance` is `UNKNOWN_INSTANCE`.
    #[allow(dead_code)]
    pub fn constant(&self) -> String {
        let words =
            self.name
                .char_indices()
                .map(|(at, c)| if at > 0 && c.is_uppercase() { format!("_{c}") } else { c.to_uppercase().to_string() });
        words.collect()
    }
}

/// The refusals of the Rattle sources, the lines of the enum `Line`, by number. Each stands below a comment `// NUMBER. SENTENCE`.
pub fn refusals() -> Vec<Refusal> {
    let source = text("crates/refusals/src/lines.rt");
    let variants = source.lines().skip_while(|line| *line != "pub enum Line {").skip(1).take_while(|line| *line != "}");
    let variants: Vec<&str> = variants.map(str::trim).collect();
    let found: Vec<Refusal> = variants
        .chunks(2)
        .map(|pair| {
            let [above, variant] = pair else { panic!("a line of `Line` without its comment: {pair:?}") };
            let (name, number) = variant.trim_end_matches(',').split_once(" = ").expect("a variant with its number");
            let sentence = above.strip_prefix(&format!("// {number}. "));
            let sentence = sentence.unwrap_or_else(|| panic!("the comment above {name} is '{above}'"));
            Refusal { number: number.parse().unwrap(), name: name.into(), sentence: sentence.into() }
        })
        .collect();
    assert!(!found.is_empty() && found.is_sorted());
    found
}
