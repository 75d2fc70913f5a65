// Stand-in for src/lazy/any_encoding.rs, which is all reader.
#[derive(Debug, Clone, Copy)]
pub struct AnyEncoding;
