//! include/packed_refs.h and the declarations in `sys` lay out each answer alike, and the header's example of an edit list is one.
use packed_refs::sys::*;
use std::mem::{offset_of, size_of};
use std::process::Command;

/// A struct's name in C, its size here, and each field's name and place here.
macro_rules! layouts {
    ($($c:literal $rust:ident { $($field:ident),* })*) => {
        vec![$(($c, size_of::<$rust>(), vec![$((stringify!($field), offset_of!($rust, $field))),*])),*]
    };
}

#[test]
fn c_and_rust_lay_out_answers_alike() {
    let layouts = layouts! {
        "header" HeaderReply { number, peeled, sorted, place, text_len }
        "start" StartReply { number, place, line, text_len }
        "step" StepReply { number, what, start, next, name_at, name_len, peeled_at, why, line, next_line, text_len }
        "check" CheckReply { number, place, line, count, text_len }
        "lookup" LookupReply { number, place, name_at, name_len, peeled_at }
        "prefix" PrefixReply { number, place, text_at, text_len }
        "ask" AskReply { number, place, line, name_at, name_len, peeled_at, text_len, fault }
        "merge" MergeReply { number, place, line, length, text_len }
        "loose" LooseReply { number, what, at, len }
    };
    let mut source = "#include \"packed_refs.h\"\n".to_string();
    for (name, size, fields) in layouts {
        source += &format!("_Static_assert(sizeof(struct packed_refs_{name}_reply) == {size}, \"the size of {name}\");\n");
        for (field, at) in fields {
            source += &format!("_Static_assert(offsetof(struct packed_refs_{name}_reply, {field}) == {at}, \"{name}.{field}\");\n");
        }
    }
    let file = std::env::temp_dir().join(format!("packed-refs-layout-{}.c", std::process::id()));
    std::fs::write(&file, source).unwrap();
    let include = concat!(env!("CARGO_MANIFEST_DIR"), "/../include");
    let compiled = Command::new("cc").args(["-std=c11", "-Wall", "-Werror", "-fsyntax-only", "-I", include]).arg(&file).output().unwrap();
    std::fs::remove_file(&file).unwrap();
    assert!(compiled.status.success(), "{}", String::from_utf8_lossy(&compiled.stderr));
}

/// The bytes of the header's example, each line at the place that stands before it, and what the header says of them.
#[test]
fn the_headers_edit_list_is_one() {
    let header = std::fs::read_to_string(concat!(env!("CARGO_MANIFEST_DIR"), "/../include/packed_refs.h")).unwrap();
    let example = header.split("in 40 bytes:").nth(1).expect("an example").split("On the old file").next().unwrap();
    let mut list = Vec::new();
    for line in example.lines() {
        let mut words = line.trim_start_matches(" *").split_whitespace();
        let Some(place) = words.next() else { continue };
        assert_eq!(place, list.len().to_string(), "{line}");
        let bytes = words.take_while(|word| word.len() == 2 && *word != "a").map_while(|word| u8::from_str_radix(word, 16).ok());
        list.extend(bytes);
    }
    assert_eq!(list.len(), 40);
    let id = |digit: &str| digit.repeat(40);
    let old = format!("{} refs/s/a\n{} refs/s/c\n", id("1"), id("2"));
    let new = format!("# pack-refs with: peeled fully-peeled sorted \n{} refs/s/a\n{} refs/s/b\n", id("1"), id("4"));
    let (mut index, mut out) = ([7; 2], vec![0; 146]);
    let said = merge(1, old.as_bytes(), &list, &mut index, &mut out);
    assert_eq!(said, MergeReply { number: 0, place: 0, line: 0, length: 146, text_len: 0 });
    assert_eq!((index, String::from_utf8(out).unwrap()), ([10, 0], new));
    // the lengths that the header spells out
    for (len, bytes) in [(8, &[0x08][..]), (127, &[0x7f]), (128, &[0x80, 0x01]), (4096, &[0x80, 0x20])] {
        let shown: Vec<String> = bytes.iter().map(|byte| format!("{byte:02x}")).collect();
        let words =
            [format!("{len} is {}", shown.join(" ")), format!("4,096, which is\n *                 the most, is {}", shown.join(" "))];
        assert!(words.iter().any(|words| header.contains(words)), "{len}");
        let list = [&[0], bytes, b"a/", &vec![b'b'; len - 2]].concat();
        assert_eq!(merge(1, b"", &list, &mut index, &mut []).number, 13, "{len}");
    }
    assert_eq!(merge(1, b"", b"\x00\x88\x00refs/s/c", &mut index, &mut []).number, 7);
}
