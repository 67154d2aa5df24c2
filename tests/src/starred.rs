//! What crates/edges/specs/Starred.antt claims, taken from its text.

use crate::edges::Edge;
use crate::stored::repository;

/// A claim: the register of an image and picks. None stands for any byte.
#[derive(Clone, PartialEq, Eq, Debug)]
pub struct Claim {
    pub name: String,
    pub image: Vec<Option<u8>>,
    pub picks: Vec<Option<u8>>,
    pub register: String,
}

impl Claim {
    /// Whether the claim speaks of this edge.
    pub fn is_of(&self, edge: &Edge) -> bool {
        agrees(&self.image, &edge.image) && agrees(&self.picks, &edge.picks)
    }
}

fn agrees(claimed: &[Option<u8>], bytes: &[u8]) -> bool {
    let mut pairs = claimed.iter().zip(bytes);
    claimed.len() == bytes.len() && pairs.all(|(one, byte)| one.is_none_or(|one| one == *byte))
}

/// The claims, in the order of the file.
pub fn claims() -> Vec<Claim> {
    let path = repository().join("crates/edges/specs/Starred.antt");
    let text = std::fs::read_to_string(path).expect("the claims are there");
    let (_, record) = text
        .split_once("pub record StarredEdges : Type 0 where")
        .expect("a record of claims");
    let lines = record.lines().filter(|line| !is_comment(line));
    let text = lines.collect::<Vec<_>>().join(" ");
    let (before, fields) = text.split_once("pub ").expect("a field");
    assert_eq!(before.trim(), "");
    fields.split(" pub ").map(claim).collect()
}

fn is_comment(line: &str) -> bool {
    line.trim_start().starts_with("--")
}

// NAME : register_of (IMAGE) (PICKS) ≡ bytes "REGISTER", where (b : ℕ) → may
// come before register_of: b is then any byte.
fn claim(text: &str) -> Claim {
    let (name, rest) = text.split_once(" : ").expect("a field has a type");
    let (any, rest) = rest
        .split_once("register_of")
        .expect("it is of register_of");
    let any = match any.trim() {
        "" => None,
        "(b : ℕ) →" => Some("b"),
        other => panic!("{name}: {other}"),
    };
    let (image, rest) = list(rest, any);
    let (picks, rest) = list(rest, any);
    Claim {
        name: name.trim().to_string(),
        image,
        picks,
        register: text_after(rest.trim()),
    }
}

// A list in brackets, and what stands after it.
fn list<'a>(text: &'a str, any: Option<&str>) -> (Vec<Option<u8>>, &'a str) {
    let inner = text.trim_start().strip_prefix('(').expect("a bracket");
    let (inner, rest) = inner.split_once(')').expect("its end");
    let inner = inner.trim().strip_suffix("[]").expect("the list's end");
    let items = inner.split('∷').map(str::trim);
    let byte = |item: &str| (Some(item) != any).then(|| item.parse().expect("a byte"));
    let bytes = items.filter(|item| !item.is_empty()).map(byte);
    (bytes.collect(), rest)
}

fn text_after(text: &str) -> String {
    let quoted = text.strip_prefix("≡ bytes \"").expect("it equals a text");
    let inner = quoted.strip_suffix('"').expect("the text's end");
    inner.replace("\\n", "\n")
}
