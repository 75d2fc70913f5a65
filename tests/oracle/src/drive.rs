//! Drives the Rust writers over decoded tapes.

use crate::lazy::encoder::text::v1_0::value_writer::TextValueWriter_1_0;
use crate::lazy::encoder::text::v1_0::writer::LazyRawTextWriter_1_0;
use crate::lazy::encoder::value_writer::internal::{FieldEncoder, MakeValueWriter};
use crate::lazy::encoder::value_writer::{
    AnnotatableWriter, SequenceWriter, StructWriter, ValueWriter,
};
use crate::lazy::encoder::LazyRawWriter;
use crate::lazy::encoding::TextEncoding_1_0;
use crate::tape::{decode, Layout5, Node};
use crate::text::text_formatter::IoValueFormatter;
use crate::{Element, IonError, IonResult, TextFormat, WriteConfig};
use std::hint::black_box;
use std::io::Write;
use std::time::Instant;

#[derive(Clone, Copy)]
pub enum Mode {
    /// `format_element`.
    Tree,
    /// `Display` for `Element`, which is `format_element` into a `DisplayBuffer`.
    Display,
    /// `LazyRawTextWriter_1_0` with this layout.
    Streaming(TextFormat),
    /// The same through the inherent `write`, which indents twice and is not what our writers follow.
    Inherent(TextFormat),
}

impl Mode {
    pub fn layout(number: u8) -> Result<Self, String> {
        Ok(Mode::Streaming(match number {
            0 => TextFormat::Compact,
            1 => TextFormat::Lines,
            2 => TextFormat::Pretty,
            _ => return Err(format!("layout {number}")),
        }))
    }
}

impl std::str::FromStr for Mode {
    type Err = String;
    fn from_str(s: &str) -> Result<Self, String> {
        match s {
            "tree" => Ok(Mode::Tree),
            "display" => Ok(Mode::Display),
            "0" | "1" | "2" => Mode::layout(s.as_bytes()[0] - b'0'),
            "inherent0" => Ok(Mode::Inherent(TextFormat::Compact)),
            "inherent1" => Ok(Mode::Inherent(TextFormat::Lines)),
            "inherent2" => Ok(Mode::Inherent(TextFormat::Pretty)),
            _ => Err(format!("unknown mode {s}\n{}", crate::USAGE)),
        }
    }
}

type Writer = LazyRawTextWriter_1_0<Vec<u8>>;

fn writer(format: TextFormat) -> IonResult<Writer> {
    <Writer as LazyRawWriter<Vec<u8>>>::build(
        WriteConfig::<TextEncoding_1_0>::new(format),
        Vec::new(),
    )
}

fn write_top_level(writer: &mut Writer, nodes: &[Node<'_>]) -> IonResult<()> {
    for node in nodes {
        match node {
            Node::Marker => writer.write_version_marker()?,
            node => write_node(SequenceWriter::value_writer(writer), node)?,
        }
    }
    Ok(())
}

fn write_node(value_writer: TextValueWriter_1_0<'_, Vec<u8>>, node: &Node<'_>) -> IonResult<()> {
    match node {
        Node::Annotated(annotations, node) => {
            // Our writers refuse it (5); the Rust writes it.
            write_value(value_writer.with_annotations(annotations.as_slice())?, node)
        }
        node => write_value(value_writer, node),
    }
}

fn write_value<'a, V>(value_writer: V, node: &Node<'_>) -> IonResult<()>
where
    V: ValueWriter<
        ListWriter = <TextValueWriter_1_0<'a, Vec<u8>> as ValueWriter>::ListWriter,
        SExpWriter = <TextValueWriter_1_0<'a, Vec<u8>> as ValueWriter>::SExpWriter,
        StructWriter = <TextValueWriter_1_0<'a, Vec<u8>> as ValueWriter>::StructWriter,
    >,
{
    match node {
        Node::Null(ion_type) => value_writer.write_null(*ion_type),
        Node::Bool(value) => value_writer.write_bool(*value),
        Node::Int(value) => value_writer.write_i64(*value),
        Node::Float(value) => value_writer.write_f64(*value),
        Node::Decimal(value) => value_writer.write_decimal(value),
        Node::Timestamp(value) => value_writer.write_timestamp(value),
        Node::Symbol(symbol) => value_writer.write_symbol(symbol),
        Node::String(text) => value_writer.write_string(text),
        Node::Clob(bytes) => value_writer.write_clob(bytes),
        Node::Blob(bytes) => value_writer.write_blob(bytes),
        Node::List(nodes) => {
            let mut list = value_writer.list_writer()?;
            for node in nodes {
                write_node(SequenceWriter::value_writer(&mut list), node)?;
            }
            list.close()
        }
        Node::SExp(nodes) => {
            let mut sexp = value_writer.sexp_writer()?;
            for node in nodes {
                write_node(SequenceWriter::value_writer(&mut sexp), node)?;
            }
            sexp.close()
        }
        Node::Struct(fields) => {
            let mut struct_ = value_writer.struct_writer()?;
            for (name, node) in fields {
                struct_.encode_field_name(name)?;
                write_node(struct_.make_value_writer(), node)?;
            }
            struct_.close()
        }
        Node::Annotated(..) | Node::Marker => unreachable!("neither stands here in a tape"),
    }
}

fn single(nodes: &[Node<'_>]) -> Result<Element, String> {
    match nodes {
        [node] => node.to_element(),
        nodes => Err(format!("{} top-level nodes have no tree text", nodes.len())),
    }
}

fn format_element(element: &Element, output: &mut Vec<u8>) -> IonResult<()> {
    let mut shim = IoValueFormatter::new(output);
    shim.value_formatter().format_element(element)?;
    shim.into_result()
}

pub fn text(mode: Mode, tape: &[u8], layout: Layout5) -> Result<Vec<u8>, String> {
    let failed = |e: IonError| format!("the Rust writer fails: {e}");
    let nodes = decode(tape, layout)?;
    match mode {
        Mode::Tree => {
            let mut output = Vec::new();
            let element = single(&nodes)?;
            format_element(&element, &mut output).map_err(failed)?;
            // The same code through `Display` must agree.
            assert_eq!(output, element.to_string().as_bytes());
            Ok(output)
        }
        Mode::Display => Ok(single(&nodes)?.to_string().into_bytes()),
        Mode::Streaming(format) => {
            let mut writer = writer(format).map_err(failed)?;
            write_top_level(&mut writer, &nodes).map_err(failed)?;
            writer.close().map_err(failed)
        }
        Mode::Inherent(format) => {
            let mut writer = writer(format).map_err(failed)?;
            for node in &nodes {
                match node {
                    Node::Marker => writer.write_version_marker().map_err(failed)?,
                    node => drop(writer.write(node.to_element()?).map_err(failed)?),
                }
            }
            writer.close().map_err(failed)
        }
    }
}

/// Times `n` writes of the decoded values into a reused buffer.
pub fn bench(mode: Mode, tape: &[u8], layout: Layout5, n: u64) -> Result<(), String> {
    let nodes = decode(tape, layout)?;
    match mode {
        Mode::Tree => {
            let element = single(&nodes)?;
            let mut output = Vec::new();
            time(tape.len(), n, || {
                output.clear();
                format_element(black_box(&element), &mut output).unwrap();
                black_box(&output).len()
            });
        }
        Mode::Display => {
            let element = single(&nodes)?;
            let mut output = Vec::new();
            time(tape.len(), n, || {
                output.clear();
                write!(output, "{}", black_box(&element)).unwrap();
                black_box(&output).len()
            });
        }
        Mode::Inherent(_) => return Err("not a mode to time".into()),
        Mode::Streaming(format) => {
            let mut writer = writer(format).unwrap();
            time(tape.len(), n, || {
                writer.output_mut().clear();
                write_top_level(&mut writer, black_box(&nodes)).unwrap();
                black_box(writer.output()).len()
            });
        }
    }
    Ok(())
}

/// The processor time that this thread has had, in seconds: on a busy machine it is steadier than
/// the time of day.
fn clock() -> f64 {
    #[cfg(all(target_os = "linux", target_pointer_width = "64"))]
    {
        extern "C" {
            fn clock_gettime(id: i32, time: *mut [i64; 2]) -> i32;
        }
        const CLOCK_THREAD_CPUTIME_ID: i32 = 3;
        let mut time = [0; 2];
        // SAFETY: on 64-bit Linux a timespec is two 64-bit integers.
        assert_eq!(unsafe { clock_gettime(CLOCK_THREAD_CPUTIME_ID, &mut time) }, 0);
        return time[0] as f64 + time[1] as f64 / 1e9;
    }
    #[allow(unreachable_code)]
    {
        use std::sync::OnceLock;
        static START: OnceLock<Instant> = OnceLock::new();
        START.get_or_init(Instant::now).elapsed().as_secs_f64()
    }
}

/// A hundred runs that make up `n` writes, after a tenth of that to warm up. The best run is the
/// one to compare on a busy machine.
fn time(tape: usize, n: u64, mut write: impl FnMut() -> usize) {
    const RUNS: u64 = 100;
    let n = n.div_ceil(RUNS).max(1);
    let mut len = 0;
    for _ in 0..10 * n {
        len = write();
    }
    let mut runs: Vec<f64> = (0..RUNS)
        .map(|_| {
            let start = clock();
            for _ in 0..n {
                len = write();
            }
            (clock() - start) / n as f64
        })
        .collect();
    runs.sort_by(f64::total_cmp);
    let figure = |seconds: f64| {
        format!("{:.1} ns/write, {:.0} text bytes/s", seconds * 1e9, len as f64 / seconds)
    };
    println!(
        "tape {tape} bytes, text {len} bytes, {RUNS} runs of {n}: best {}; median {}; mean {}",
        figure(runs[0]),
        figure(runs[runs.len() / 2]),
        figure(runs.iter().sum::<f64>() / runs.len() as f64),
    );
}
