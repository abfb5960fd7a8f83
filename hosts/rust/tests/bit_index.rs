//! Taking a bit finds its index in the sponge's state without division or remainder, and without a loop in their place (document 02, 2.3). No
//! contract can say so: the index is the same either way. So the bodies are read, of the functions that find it and of all that they call but P.

const RATE: &str = include_str!("../../../crates/sponge/src/rate.rt");
const PIECES: &str = include_str!("../../../crates/sponge/src/pieces.rt");
const INSTANCES: &str = include_str!("../../../crates/words/src/instances.rt");

/// What is called to run P.
const P: [&str; 2] = ["state_bytes", "permutation::permute"];

/// How far a line is indented.
fn indent(line: &str) -> usize {
    line.len() - line.trim_start().len()
}

/// A function's or a method's body, without comments. It begins after the line that ends with its brace; those of its clauses are indented deeper.
fn body(function: &str, source: &str) -> String {
    let starts = [format!("fn {function}("), format!("pub fn {function}(")];
    let from = source.lines().skip_while(|line| !starts.iter().any(|start| line.trim_start().starts_with(start)));
    let depth = from.clone().next().map_or(0, indent);
    let body = from.skip_while(|line| indent(line) > depth || !line.ends_with('{')).skip(1);
    let lines = body.take_while(|line| indent(line) > depth || line.trim() != "}");
    lines.map(|line| line.split("//").next().unwrap()).collect::<Vec<_>>().join("\n")
}

/// What a body calls, each as it is written there.
fn calls(body: &str) -> Vec<&str> {
    let before = body.match_indices('(').map(|(at, _)| &body[..at]);
    let calls = before.map(|text| {
        let name = text.rsplit(|c: char| !c.is_alphanumeric() && c != '_' && c != ':').next().unwrap();
        let hidden = name.is_empty() && text.trim_end().ends_with(|c: char| c.is_alphanumeric() || c == '>' || c == ')');
        assert!(!hidden, "a call is not read in\n{body}");
        name
    });
    calls.filter(|name| !name.is_empty()).collect()
}

#[test]
fn no_division_and_no_remainder() {
    let mut read =
        [("take_bit", PIECES), ("add_bit", PIECES), ("bit_index", RATE)].map(|(name, source)| (name.to_string(), source)).to_vec();
    let mut next = 0;
    while let Some((function, source)) = read.get(next).cloned() {
        let body = body(&function, source);
        assert!(!body.is_empty(), "{function} is not found");
        assert!(!body.contains(['/', '%']), "{function} divides:\n{body}");
        assert!(!body.split_whitespace().any(|word| ["while", "for", "loop"].contains(&word)), "{function} has a loop:\n{body}");
        for call in calls(&body).into_iter().filter(|call| !P.contains(call)) {
            let (name, source) = match call.strip_prefix("rate::") {
                Some(name) => (name, RATE),
                None if call == "Instance::from" => ("from", INSTANCES),
                None => (call, source),
            };
            assert_ne!(name, function, "a function calls itself:\n{body}");
            let called = (name.to_string(), source);
            if !read.contains(&called) {
                read.push(called);
            }
        }
        next += 1;
    }
}
