//! The index of a struct, and lookups in it. What is expected is worked out from the fields that a struct is built of.

use crate::random::Random;
use crate::tapes::*;
use lechuqta::*;

/// Guard entries on each side, and what stands in an entry before a call.
const BESIDE: usize = 3;

fn old(i: usize) -> Entry {
    Entry { name: u64::MAX - i as u64, value: 0xA5A5_A5A5 + i as u64 }
}

/// Makes an index in `room` entries. The answer must be this, the first entries the index, and the others, the guards among them, as before.
pub fn check_index(tape: &[u8], at: usize, room: usize, answer: Result<&[Entry], Refusal>) {
    let mut memory: Vec<_> = (0..room + 2 * BESIDE).map(old).collect();
    let mut expected = memory.clone();
    if let Ok(index) = answer {
        expected[BESIDE..BESIDE + index.len()].copy_from_slice(index);
    }
    let given = tape.to_vec();
    let found = index_into(&given, at, &mut memory[BESIDE..BESIDE + room]);
    assert_eq!(found, answer.map(<[Entry]>::len), "the answer at {at} in {room} entries on {:?}", &tape[..tape.len().min(80)]);
    assert!(memory == expected, "the entries at {at} in {room} entries on {:?}", &tape[..tape.len().min(80)]);
    assert!(given == tape, "the tape was written");
}

/// A name as it is compared: identifiers by number, then texts by their bytes.
#[derive(Clone, Debug, PartialEq, Eq, PartialOrd, Ord)]
enum Name {
    Id(u32),
    Text(Vec<u8>),
}

fn name(node: &[u8]) -> Name {
    match node[0] {
        7 => Name::Id(u32::from_le_bytes(node[1..].try_into().unwrap())),
        _ => Name::Text(node[5..].to_vec()),
    }
}

/// The index of a struct of these fields that starts at an offset, and the names beside it.
fn index_of(at: usize, fields: &[(Node, Node)]) -> (Vec<Entry>, Vec<Name>) {
    let mut from = at + 5;
    let mut all = vec![];
    for (node, value) in fields {
        all.push((name(node), Entry { name: from as u64, value: (from + node.len()) as u64 }));
        from += node.len() + value.len();
    }
    // The tie: this sort keeps the order of equal names, so from the struct's end the latest stands first.
    all.reverse();
    all.sort_by(|(a, _), (b, _)| a.cmp(b));
    all.into_iter().map(|(name, entry)| (entry, name)).unzip()
}

/// A lookup by either kind of name.
fn found(tape: &[u8], index: &[Entry], name: &Name) -> Option<usize> {
    match name {
        Name::Id(id) => find_id(tape, index, *id),
        Name::Text(text) => find(tape, index, text),
    }
}

/// The index of a struct in entries of every length about the number of its fields, and lookups of its names and of names like them.
fn check_struct(tape: &[u8], at: usize, fields: &[(Node, Node)]) {
    let (index, names) = index_of(at, fields);
    let n = fields.len();
    for room in [n, n + 1, n + 9] {
        check_index(tape, at, room, Ok(&index));
    }
    for room in [0, n / 2, n.saturating_sub(1)] {
        if room < n {
            check_index(tape, at, room, Err(Refusal::TooManyFields));
        }
    }
    let mut sought = names.clone();
    for name in &names {
        match name {
            Name::Id(id) => sought.extend([Name::Id(id.wrapping_add(1)), Name::Id(id.wrapping_sub(1)), Name::Text(format!("${id}").into_bytes())]),
            Name::Text(text) => {
                sought.push(Name::Text(text[..text.len() / 2].to_vec()));
                sought.extend([b"\0".as_slice(), b"a", b"\xFF"].map(|more| Name::Text([text, more].concat())));
            }
        }
    }
    sought.extend([Name::Id(0), Name::Id(7), Name::Id(u32::MAX), Name::Text(vec![]), Name::Text(b"\xC3".to_vec())]);
    sought.sort();
    sought.dedup();
    let made = Index::new(tape, at).unwrap();
    assert_eq!((made.len(), made.is_empty(), made.entries(), made.tape()), (n, n == 0, index.as_slice(), tape));
    assert!(made.iter().eq(index.iter().map(|entry| Field { name: entry.name as usize, value: entry.value as usize })));
    for name in &sought {
        let due = names.iter().position(|other| other == name);
        assert_eq!(found(tape, &index, name), due, "{name:?} in {names:?}");
        let field = match name {
            Name::Id(id) => made.get_id(*id),
            Name::Text(text) => made.get(text),
        };
        assert_eq!(field, due.map(|place| index[place].into()), "{name:?} in {names:?}");
    }
}

#[test]
fn order() {
    let text = "{b: 1, '': 1, $10: 1, ab: 1, a: 1, $9: 1, '$9': 1, '9': 1, 'é': 1, z: 1, a: 2, $9: 2, $4294967295: 1, aa: 1, 'a\\0': 1, \
        '\u{10FFFF}': 1, '\u{FFFF}': 1, $256: 1}";
    let tape = to_tape(text.as_bytes()).unwrap();
    let shown = |field: Field| match name(&tape[field.name..field.value]) {
        Name::Id(id) => format!("${id}={}", tape[field.value + 1]),
        Name::Text(text) => format!("'{}'={}", String::from_utf8(text).unwrap(), tape[field.value + 1]),
    };
    let sorted: Vec<_> = Index::new(&tape, 0).unwrap().iter().map(shown).collect();
    let due =
        "$9=2 $9=1 $10=1 $256=1 $4294967295=1 ''=1 '$9'=1 '9'=1 'a'=2 'a'=1 'a\0'=1 'aa'=1 'ab'=1 'b'=1 'z'=1 'é'=1 '\u{FFFF}'=1 '\u{10FFFF}'=1";
    assert_eq!(sorted.join(" "), due);
}

/// A field that was added again is found as it stands last, whatever stands between.
#[test]
fn corrected() {
    let tape = to_tape(b"{peak: 1, $7: 2, norad: 3, '$7': 4, peak: 5, $7: 6, peak: 7, sunlit: 8}").unwrap();
    let pass = Index::new(&tape, 0).unwrap();
    let value = |field: Option<Field>| tape[field.unwrap().value + 1];
    assert_eq!(["peak", "norad", "$7", "sunlit"].map(|name| value(pass.get(name))), [7, 3, 4, 8]);
    assert_eq!((value(pass.get_id(7)), pass.len()), (6, 8));
}

/// Structs in containers, in fields and behind annotations; the byte 12 at places where no struct starts.
#[test]
fn every_offset() {
    let inner = [(symbol("x"), null(12)), (id(12), string("\u{c}\0\0\0\0"))];
    let noted = annotated(&[symbol("a"), id(12)], structure(&inner));
    let fields = [(symbol("b"), noted.clone()), (symbol("a"), list(&[structure(&[])])), (symbol("a"), clob(&structure(&inner))), (id(1), int(12))];
    let tape = tape(&[marker(), structure(&fields), noted, sexp(&[blob(&single(&structure(&[])))])]);
    let note = 2 + symbol("a").len() + id(12).len();
    let first = 1 + 5 + symbol("b").len() + note;
    let empty = first + structure(&inner).len() + symbol("a").len() + 5;
    let last = 1 + structure(&fields).len() + note;
    let structs: [(usize, &[_]); 4] = [(1, &fields), (first, &inner), (empty, &[]), (last, &inner)];
    for (at, fields) in structs {
        check_struct(&tape, at, fields);
    }
    for at in (0..tape.len() + 20).chain([1 << 20, (1 << 32) + 1, usize::MAX - 4, usize::MAX]) {
        if !structs.iter().any(|(place, _)| *place == at) {
            check_index(&tape, at, 8, Err(Refusal::NoStruct));
            check_index(&tape, at, 0, Err(Refusal::NoStruct));
            assert_eq!(Index::new(&tape, at).err(), Some(Refusal::NoStruct));
        }
    }
}

#[test]
fn at_every_depth() {
    // 64 structs in each other, each with a field before and one behind the next.
    let mut fields = vec![];
    let mut starts = vec![];
    for _ in 0..64 {
        let inner = structure(&fields);
        fields = if starts.is_empty() { vec![] } else { vec![(symbol("b"), null(0)), (symbol("c"), inner), (symbol("a"), null(0))] };
        starts.push(fields.clone());
    }
    let tape = single(&structure(&fields));
    let mut at = 0;
    for fields in starts.iter().rev() {
        check_struct(&tape, at, fields);
        at += 5 + 6 + 2 + 6;
    }
    check_index(&single(&list(&[structure(&fields)])), 5, 8, Err(Refusal::TooDeep));
}

#[test]
fn many_fields() {
    // 149,794 is the most that a tape has room for.
    for count in [31, 32, 33, 64, 65, 1000, 149_794] {
        let equal = vec![(symbol(""), boolean(true)); count];
        check_struct(&single(&structure(&equal)), 0, &equal[..]);
    }
    assert_eq!(single(&structure(&vec![(symbol(""), boolean(true)); 149_795])).len(), MAX_TAPE + 2);
    let mut random = Random(5);
    for count in [33, 500, 3000] {
        let fields: Vec<_> = (0..count).map(|_| (id(random.below(count) as u32), null(0))).collect();
        check_struct(&single(&structure(&fields)), 0, &fields);
        let fields: Vec<_> = (0..count).rev().map(|i| (symbol(&format!("{i:x}")), string("a longer value"))).collect();
        check_struct(&single(&structure(&fields)), 0, &fields);
    }
}

#[test]
fn random_structs() {
    let mut random = Random(6);
    let pieces = ["", "a", "b", "aa", "ab", "$7", "é", "日"];
    for _ in 0..1000 {
        let fields: Vec<_> = (0..random.below(24))
            .map(|_| {
                let name =
                    if random.below(4) == 0 { id(random.below(9) as u32) } else { symbol(&[random.pick(&pieces), random.pick(&pieces)].concat()) };
                (name, random.value(2, true, true))
            })
            .collect();
        let before = random.list_of_values(2);
        let at = before.concat().len();
        check_struct(&tape(&[before, vec![structure(&fields), random.value(2, true, true)]].concat()), at, &fields);
    }
}

/// Over entries that are no index of the tape: none, or a place in the slice.
#[test]
fn foreign_entries() {
    let mut random = Random(7);
    for _ in 0..2000 {
        let tape = match random.below(4) {
            0 => (0..random.below(40)).map(|_| random.next() as u8 % 16).collect(),
            _ => single(&random.value(3, true, true)),
        };
        let entries: Vec<_> = (0..random.below(20))
            .map(|_| {
                let near = random.below(tape.len() + 10) as u64;
                let name = [near, near, u64::MAX - near, random.next(), 1 << 32 | near][random.below(5)];
                Entry { name, value: random.next() }
            })
            .collect();
        let name: Vec<_> = (0..random.below(4)).map(|_| random.next() as u8).collect();
        for place in [find(&tape, &entries, &name), find(&tape, &entries, ""), find_id(&tape, &entries, random.below(3) as u32)] {
            assert!(place.into_iter().all(|place| place < entries.len()));
        }
    }
}
