//! Tapes made by hand, node by node as docs/FORMAT.md has them.

pub type Node = Vec<u8>;

pub const UNKNOWN: i16 = 32767;

/// A kind byte and what follows it.
fn kind(kind: u8, parts: &[&[u8]]) -> Node {
    [&[kind], parts.concat().as_slice()].concat()
}

fn sized(k: u8, bytes: &[u8]) -> Node {
    kind(k, &[&(bytes.len() as u32).to_le_bytes(), bytes])
}

pub fn null(type_: u8) -> Node {
    vec![0, type_]
}

pub fn boolean(b: bool) -> Node {
    vec![1, b as u8]
}

pub fn int(i: i64) -> Node {
    kind(2, &[&i.to_le_bytes()])
}

pub fn float(f: f64) -> Node {
    kind(3, &[&f.to_bits().to_le_bytes()])
}

pub fn nan() -> Node {
    kind(3, &[&0x7FF8_0000_0000_0000u64.to_le_bytes()])
}

pub fn decimal(negative: bool, magnitude: u64, exponent: i32) -> Node {
    kind(4, &[&[negative as u8], &magnitude.to_le_bytes(), &exponent.to_le_bytes()])
}

/// Precision; year, month, day, hour, minute, second; offset; digit count and fraction.
pub fn timestamp(precision: u8, [year, rest @ ..]: [u16; 6], offset: i16, digits: u8, fraction: u32) -> Node {
    let fields = rest.map(|field| field as u8);
    kind(5, &[&[precision], &year.to_le_bytes(), &fields, &offset.to_le_bytes(), &[digits], &fraction.to_le_bytes()])
}

pub fn symbol(text: &str) -> Node {
    sized(6, text.as_bytes())
}

pub fn id(number: u32) -> Node {
    kind(7, &[&number.to_le_bytes()])
}

pub fn string(text: &str) -> Node {
    sized(8, text.as_bytes())
}

pub fn clob(bytes: &[u8]) -> Node {
    sized(9, bytes)
}

pub fn blob(bytes: &[u8]) -> Node {
    sized(15, bytes)
}

pub fn list(children: &[Node]) -> Node {
    sized(10, &children.concat())
}

pub fn sexp(children: &[Node]) -> Node {
    sized(11, &children.concat())
}

/// A name before each value.
pub fn structure(fields: &[(Node, Node)]) -> Node {
    sized(12, &fields.iter().flat_map(|(name, value)| [name.as_slice(), value]).collect::<Vec<_>>().concat())
}

pub fn annotated(notes: &[Node], value: Node) -> Node {
    kind(13, &[&[notes.len() as u8], &notes.concat(), &value])
}

pub fn marker() -> Node {
    vec![14]
}

/// `depth` lists within each other.
pub fn nested(depth: usize) -> Node {
    (1..depth).fold(list(&[]), |inner, _| list(&[inner]))
}

/// Any body and trailer.
pub fn trailed(body: &[u8], length: u32, count: u32) -> Vec<u8> {
    [body, &length.to_le_bytes(), &count.to_le_bytes()].concat()
}

pub fn tape(nodes: &[Node]) -> Vec<u8> {
    let body = nodes.concat();
    trailed(&body, body.len() as u32, nodes.len() as u32)
}

/// A tape of one value.
pub fn single(node: &Node) -> Vec<u8> {
    tape(std::slice::from_ref(node))
}
