//! Decodes an accepted tape (docs/FORMAT.md) into Rust values. It trusts the tape beyond what it
//! needs to stay within bounds: it is not the checker of refusals.

use crate::types::decimal::coefficient::Coefficient;
use crate::types::decimal::Sign;
use crate::{Annotations, Decimal, Element, IonType, RawSymbolRef, Sequence, Struct, Symbol};
use crate::{Timestamp, Value};

/// The form of node 5: the tape's, or one with a u64 fraction and up to 18 digits.
#[derive(Clone, Copy)]
pub enum Layout5 {
    Nano,
    Atto,
}

pub enum Node<'a> {
    Null(IonType),
    Bool(bool),
    Int(i64),
    Float(f64),
    Decimal(Decimal),
    Timestamp(Timestamp),
    Symbol(RawSymbolRef<'a>),
    String(&'a str),
    Clob(&'a [u8]),
    Blob(&'a [u8]),
    List(Vec<Node<'a>>),
    SExp(Vec<Node<'a>>),
    Struct(Vec<(RawSymbolRef<'a>, Node<'a>)>),
    Annotated(Vec<RawSymbolRef<'a>>, Box<Node<'a>>),
    Marker,
}

struct Cursor<'a> {
    rest: &'a [u8],
    layout: Layout5,
}

type Result<T> = std::result::Result<T, String>;

impl<'a> Cursor<'a> {
    fn take(&mut self, len: usize) -> Result<&'a [u8]> {
        let (taken, rest) = self.rest.split_at_checked(len).ok_or("tape ends inside a node")?;
        self.rest = rest;
        Ok(taken)
    }
    fn array<const N: usize>(&mut self) -> Result<[u8; N]> {
        Ok(self.take(N)?.try_into().unwrap())
    }
    fn u8(&mut self) -> Result<u8> {
        Ok(self.array::<1>()?[0])
    }
    fn u16(&mut self) -> Result<u16> {
        Ok(u16::from_le_bytes(self.array()?))
    }
    fn u32(&mut self) -> Result<u32> {
        Ok(u32::from_le_bytes(self.array()?))
    }
    fn u64(&mut self) -> Result<u64> {
        Ok(u64::from_le_bytes(self.array()?))
    }
    fn bytes(&mut self) -> Result<&'a [u8]> {
        let len = self.u32()?;
        self.take(len as usize)
    }
    fn text(&mut self) -> Result<&'a str> {
        std::str::from_utf8(self.bytes()?).map_err(|e| e.to_string())
    }
    fn inside(&mut self) -> Result<Cursor<'a>> {
        let rest = self.bytes()?;
        Ok(Cursor { rest, ..*self })
    }
    fn nodes(mut self) -> Result<Vec<Node<'a>>> {
        let mut nodes = Vec::new();
        while !self.rest.is_empty() {
            nodes.push(self.node()?);
        }
        Ok(nodes)
    }
    fn symbol(&mut self) -> Result<RawSymbolRef<'a>> {
        match self.u8()? {
            6 => Ok(RawSymbolRef::Text(self.text()?)),
            7 => Ok(RawSymbolRef::SymbolId(self.u32()? as usize)),
            kind => Err(format!("kind {kind} where a symbol stands")),
        }
    }

    fn node(&mut self) -> Result<Node<'a>> {
        use IonType::*;
        const TYPES: [IonType; 13] = [
            Null, Bool, Int, Float, Decimal, Timestamp, Symbol, String, Clob, Blob, List, SExp,
            Struct,
        ];
        Ok(match self.u8()? {
            0 => Node::Null(*TYPES.get(self.u8()? as usize).ok_or("null type")?),
            1 => Node::Bool(self.u8()? != 0),
            2 => Node::Int(self.u64()? as i64),
            3 => Node::Float(f64::from_bits(self.u64()?)),
            4 => {
                let sign = match self.u8()? {
                    0 => Sign::Positive,
                    _ => Sign::Negative,
                };
                let magnitude = self.u64()?;
                let exponent = self.u32()? as i32;
                Node::Decimal(crate::Decimal::new(
                    Coefficient::from_sign_and_value(sign, magnitude),
                    exponent,
                ))
            }
            5 => Node::Timestamp(self.timestamp()?),
            6 => Node::Symbol(RawSymbolRef::Text(self.text()?)),
            7 => Node::Symbol(RawSymbolRef::SymbolId(self.u32()? as usize)),
            8 => Node::String(self.text()?),
            9 => Node::Clob(self.bytes()?),
            10 => Node::List(self.inside()?.nodes()?),
            11 => Node::SExp(self.inside()?.nodes()?),
            12 => {
                let mut inside = self.inside()?;
                let mut fields = Vec::new();
                while !inside.rest.is_empty() {
                    fields.push((inside.symbol()?, inside.node()?));
                }
                Node::Struct(fields)
            }
            13 => {
                let count = self.u8()?;
                let annotations = (0..count).map(|_| self.symbol()).collect::<Result<_>>()?;
                Node::Annotated(annotations, Box::new(self.node()?))
            }
            14 => Node::Marker,
            // Beyond the tape: a blob, u32 length and bytes.
            15 => Node::Blob(self.bytes()?),
            kind => return Err(format!("kind {kind}")),
        })
    }

    fn timestamp(&mut self) -> Result<Timestamp> {
        let precision = self.u8()?;
        let year = self.u16()? as u32;
        let [month, day, hour, minute, second] = self.array::<5>()?.map(u32::from);
        let offset = self.u16()? as i16;
        let digits = self.u8()?;
        let fraction = match self.layout {
            Layout5::Nano => self.u32()? as u64,
            Layout5::Atto => self.u64()?,
        };
        let year = Timestamp::with_year(year);
        let built = match precision {
            0 => year.build(),
            1 => year.with_month(month).build(),
            2 => year.with_month(month).with_day(day).build(),
            3 => {
                let minute = year.with_month(month).with_day(day).with_hour_and_minute(hour, minute);
                match offset {
                    32767 => minute.build(),
                    offset => minute.with_offset(offset as i32).build(),
                }
            }
            4 => {
                let second = year.with_month(month).with_day(day).with_hms(hour, minute, second);
                match (digits, offset) {
                    (0, 32767) => second.build(),
                    (0, offset) => second.with_offset(offset as i32).build(),
                    (digits, offset) => {
                        let fraction = Decimal::new(fraction, -(digits as i64));
                        let second = second.with_fractional_seconds(fraction);
                        match offset {
                            32767 => second.build(),
                            offset => second.with_offset(offset as i32).build(),
                        }
                    }
                }
            }
            precision => return Err(format!("precision {precision}")),
        };
        built.map_err(|e| format!("the builder refuses a timestamp: {e}"))
    }
}

/// The top-level nodes of a tape.
pub fn decode(tape: &[u8], layout: Layout5) -> Result<Vec<Node<'_>>> {
    let body = tape.len().checked_sub(8).ok_or("tape under 8 bytes")?;
    let (body, trailer) = tape.split_at(body);
    let number = |i: usize| u32::from_le_bytes(trailer[i..i + 4].try_into().unwrap()) as usize;
    if number(0) != body.len() {
        return Err("body length".into());
    }
    let nodes = Cursor { rest: body, layout }.nodes()?;
    if number(4) != nodes.len() {
        return Err("top-level count".into());
    }
    Ok(nodes)
}

fn owned(symbol: RawSymbolRef<'_>) -> Result<Symbol> {
    match symbol {
        RawSymbolRef::Text(text) => Ok(Symbol::owned(text)),
        RawSymbolRef::SymbolId(0) => Ok(Symbol::unknown_text()),
        RawSymbolRef::SymbolId(id) => Err(format!("an Element has no identifier ${id}")),
    }
}

impl Node<'_> {
    /// The value as the tree holds it.
    pub fn to_element(&self) -> Result<Element> {
        let sequence = |nodes: &Vec<Node<'_>>| -> Result<Sequence> {
            let elements: Vec<Element> = nodes.iter().map(Node::to_element).collect::<Result<_>>()?;
            Ok(elements.into())
        };
        let value = match self {
            Node::Null(ion_type) => Value::Null(*ion_type),
            Node::Bool(value) => Value::Bool(*value),
            Node::Int(value) => Value::Int((*value).into()),
            Node::Float(value) => Value::Float(*value),
            Node::Decimal(value) => Value::Decimal(value.clone()),
            Node::Timestamp(value) => Value::Timestamp(value.clone()),
            Node::Symbol(symbol) => Value::Symbol(owned(*symbol)?),
            Node::String(text) => Value::String((*text).into()),
            Node::Clob(bytes) => Value::Clob((*bytes).into()),
            Node::Blob(bytes) => Value::Blob((*bytes).into()),
            Node::List(nodes) => Value::List(sequence(nodes)?),
            Node::SExp(nodes) => Value::SExp(sequence(nodes)?),
            Node::Struct(fields) => {
                let fields = fields
                    .iter()
                    .map(|(name, value)| Ok((owned(*name)?, value.to_element()?)))
                    .collect::<Result<Vec<(Symbol, Element)>>>()?;
                Value::Struct(Struct::from_iter(fields))
            }
            Node::Annotated(annotations, value) => {
                let symbols = annotations.iter().map(|a| owned(*a)).collect::<Result<Vec<_>>>()?;
                let (_, value) = value.to_element()?.into_parts();
                return Ok(Element::new(Annotations::new(symbols), value));
            }
            Node::Marker => return Err("a marker has no tree text".into()),
        };
        Ok(Element::new(Annotations::empty(), value))
    }
}
