//! Calls every function of the boundary, and holds every field of every answer to a value that no other field has.
use packed_refs::sys::*;

const HEADER: &[u8] = b"# pack-refs with: peeled fully-peeled sorted \n";
const ONE: [u8; 40] = [b'1'; 40];

/// A record's line, and its peeled line.
fn record(digit: u8, name: &str, peeled: Option<u8>) -> Vec<u8> {
    let mut line = [&[digit; 40][..], b" ", name.as_bytes(), b"\n"].concat();
    if let Some(digit) = peeled {
        line.extend([&b"^"[..], &[digit; 40], b"\n"].concat());
    }
    line
}

/// Header, `1* refs/s/a`, `2* refs/s/c`, `^3*`: 46 + 50 + 50 + 42 bytes.
fn old() -> Vec<u8> {
    [HEADER, &record(b'1', "refs/s/a", None), &record(b'2', "refs/s/c", Some(b'3'))].concat()
}

/// Delete `refs/s/c`, update `refs/s/b` to 4*: 10 + 30 bytes.
fn edits() -> Vec<u8> {
    [&b"\x00\x08refs/s/c\x01\x08refs/s/b"[..], &[0x44; 20]].concat()
}

/// One byte more than is taken. It is never touched, so it costs no memory.
fn too_large() -> Vec<u8> {
    vec![0; packed_refs::LARGEST_INPUT + 1]
}

#[test]
fn headers() {
    assert_eq!(header(&old()), HeaderReply { number: 0, peeled: 2, sorted: 1, place: 46, text_len: 0 });
    assert_eq!(header(b"# pack-refs with: peeled\r\n"), HeaderReply { number: 0, peeled: 1, sorted: 0, place: 26, text_len: 0 });
    assert_eq!(header(b""), HeaderReply { number: 0, peeled: 0, sorted: 0, place: 0, text_len: 0 });
    assert_eq!(header(b"# no header\r\n"), HeaderReply { number: 2, peeled: 0, sorted: 0, place: 0, text_len: 11 });
    assert_eq!(header(&too_large()).number, 17);
}

#[test]
fn names() {
    assert_eq!(name(b"refs/s/a"), 0);
    assert_eq!(name(b"refs"), 3);
    assert_eq!(name(b""), 3);
    assert_eq!(name(&too_large()), 17);
}

#[test]
fn starts() {
    let none = StartReply { number: 0, place: 0, line: 0, text_len: 0 };
    assert_eq!(start(1, &old()), StartReply { place: 46, line: 2, ..none });
    assert_eq!(start(1, b""), StartReply { line: 1, ..none });
    assert_eq!(start(2, b"#\n"), StartReply { number: 2, text_len: 1, ..none });
    assert_eq!(start(3, b""), StartReply { number: 1, ..none });
    assert_eq!(start(1, &too_large()), StartReply { number: 17, ..none });
}

/// Everything 0: what a step gives that refuses.
const NOTHING: StepReply =
    StepReply { number: 0, what: 0, start: 0, next: 0, name_at: 0, name_len: 0, peeled_at: 0, why: 0, line: 0, next_line: 0, text_len: 0 };

/// The record of `old` that has a `^` line, and `rubbish` behind it, which is line 5.
#[test]
fn steps() {
    let file = [&old()[..], b"rubbish\n"].concat();
    let good = StepReply { what: 1, start: 96, next: 188, name_at: 137, name_len: 8, peeled_at: 147, ..NOTHING };
    assert_eq!(step(1, &file, 96), good);
    assert_eq!(walk(1, &file, 96, 7), StepReply { next_line: 9, ..good });
    assert_eq!(step_prefix(1, &file, b"refs/s/c", 96), good);
    assert_eq!(step_prefix(1, &file, b"", 96), good);
    assert_eq!(step(1, &file, 46).peeled_at, 0);
    assert_eq!(walk(1, &file, 46, 7).next_line, 8);

    // counted, as it was given, and none
    let error = StepReply { what: 2, start: 188, next: 196, why: 41, text_len: 7, ..NOTHING };
    assert_eq!(step(1, &file, 188), StepReply { line: 5, ..error });
    assert_eq!(walk(1, &file, 188, 9), StepReply { line: 9, next_line: 10, ..error });
    assert_eq!(step_prefix(1, &file, b"anything", 188), error);
    assert_eq!(step_prefix(1, &file, b"", 188), error);

    let end = StepReply { next: 196, ..NOTHING };
    assert_eq!(step(1, &file, 196), end);
    assert_eq!(step(1, &file, usize::MAX), end);
    assert_eq!(step_prefix(1, &file, b"refs/s/d", 96), end);
    // at an end the line is as it came
    for line in [0, 1, 10, u64::MAX] {
        assert_eq!(walk(1, &file, 196, line), StepReply { next_line: line, ..end });
        assert_eq!(walk(1, &file, usize::MAX, line), StepReply { next_line: line, ..end });
    }

    assert_eq!(step(0, b"x\n", 0), StepReply { number: 1, ..NOTHING });
    assert_eq!(walk(3, b"x\n", 0, 1), StepReply { number: 1, ..NOTHING });
    assert_eq!(step_prefix(9, b"x\n", b"", 0), StepReply { number: 1, ..NOTHING });
    assert_eq!(step(1, &too_large(), 0), StepReply { number: 17, ..NOTHING });
    assert_eq!(walk(2, &too_large(), 0, 1), StepReply { number: 17, ..NOTHING });
    assert_eq!(step_prefix(1, b"x\n", &too_large(), 0), StepReply { number: 17, ..NOTHING });
}

/// The plain step tells the true line whatever the place, and the text from there on: within a line, a `^` line or a header too. The walk believes the line that
/// it is given.
#[test]
fn a_step_within_a_line() {
    let file = [&old()[..], b"rubbish\r\n\nla\0st"].concat();
    for (place, line, text) in [
        (0, 1, &HEADER[..45]),
        (45, 1, b""),
        (95, 2, b""),
        (99, 3, &[&[b'2'; 37][..], b" refs/s/c"].concat()),
        (146, 4, &[&b"^"[..], &[b'3'; 40]].concat()),
        (186, 4, b"3"),
        (188, 5, b"rubbish\r"),
        (191, 5, b"bish\r"),
        (195, 5, b"\r"),
        (196, 5, b""),
        (197, 6, b""),
        (198, 7, b"la\0st"),
        (202, 7, b"t"),
    ] {
        let next = (place + text.len() + 1).min(file.len());
        let error = StepReply { what: 2, start: place, next, why: 41, line, text_len: text.len(), ..NOTHING };
        assert_eq!(step(1, &file, place), error, "at {place}");
        assert_eq!(&file[place..place + text.len()], text, "at {place}");
        let next_line = 70 + u64::from(file[next - 1] == b'\n');
        assert_eq!(walk(1, &file, place, 70), StepReply { line: 70, next_line, ..error }, "at {place}");
        assert_eq!(step_prefix(1, &file, b"", place), StepReply { line: 0, ..error }, "at {place}");
    }
}

/// From the start's place and line the walk hands on lines to the end, and tells the line that the plain step counts. The largest number stays.
#[test]
fn a_walk_hands_on_lines() {
    let body = [&record(b'1', "refs/s/a", Some(b'2'))[..], b"x\n", &record(b'1', "refs/s/b", None), b"^y\r\n", b"\n", b"cut"].concat();
    for header in [&b""[..], HEADER] {
        let file = [header, &body].concat();
        let begun = start(1, &file);
        let (mut place, mut line, mut told) = (begun.place, begun.line, Vec::new());
        loop {
            let (walked, stepped) = (walk(1, &file, place, line), step(1, &file, place));
            assert_eq!(StepReply { next_line: 0, ..walked }, stepped, "at {place}");
            (place, line) = (walked.next, walked.next_line);
            match walked.what {
                0 => break,
                1 => assert_eq!(walked.line, 0),
                _ => told.push((walked.line, walked.why, walked.text_len)),
            }
        }
        let before = u64::from(!header.is_empty());
        // the line of refs/s/b, whose ^ line is bad, and that line itself
        let expected = [(3, 41, 1), (4, 45, 49), (5, 41, 3), (6, 41, 0), (7, 41, 3)].map(|(line, why, len)| (line + before, why, len));
        assert_eq!(told, expected);
        assert_eq!((place, line), (file.len(), 7 + before));
    }

    let peeled = record(b'1', "refs/s/a", Some(b'2'));
    for (bytes, line, next_line) in [
        (&b"x\n"[..], u64::MAX - 1, u64::MAX),
        (b"x\n", u64::MAX, u64::MAX),
        (b"x", u64::MAX, u64::MAX),
        (b"x", 5, 5),
        (b"x\n", 0, 1),
        (&peeled, u64::MAX - 2, u64::MAX),
        (&peeled, u64::MAX - 1, u64::MAX),
        (&peeled, u64::MAX, u64::MAX),
        (&peeled[..50], u64::MAX, u64::MAX),
    ] {
        let said = walk(1, bytes, 0, line);
        assert_eq!((said.next_line, said.line), (next_line, if said.what == 2 { line } else { 0 }), "{line}");
    }
}

#[test]
fn checks() {
    let none = CheckReply { number: 0, place: 0, line: 0, count: 0, text_len: 0 };
    assert_eq!(check(1, &old()), CheckReply { count: 2, ..none });
    assert_eq!(check(1, b"# no header"), CheckReply { number: 2, text_len: 11, ..none });
    // behind a header and a ^ line
    assert_eq!(check(1, &[&old()[..], b"xyz\r\n"].concat()), CheckReply { number: 41, place: 188, line: 5, text_len: 4, ..none });
    assert_eq!(check(1, &[&old()[..], b"xyz"].concat()), CheckReply { number: 41, place: 188, line: 5, text_len: 3, ..none });
    assert_eq!(check(1, b"\n"), CheckReply { number: 41, line: 1, ..none });
    let twice = [record(b'1', "refs/s/a", None), record(b'1', "refs/s/a", None)].concat();
    assert_eq!(check(1, &twice), CheckReply { number: 6, place: 50, ..none });
    assert_eq!(check(7, b""), CheckReply { number: 1, ..none });
    assert_eq!(check(2, &too_large()), CheckReply { number: 17, ..none });
    assert_eq!(check(2, &[&[b'a'; 64][..], b" refs/s/a\n"].concat()).count, 1);
}

#[test]
fn record_starts() {
    let file = old();
    assert_eq!(record_start(&file, 0), 0);
    assert_eq!(record_start(&file, 95), 46);
    assert_eq!(record_start(&file, 150), 96);
    assert_eq!(record_start(&file, usize::MAX), 0);
}

#[test]
fn lookups() {
    let file = old();
    let hit = LookupReply { number: 0, place: 50, name_at: 91, name_len: 8, peeled_at: 101 };
    assert_eq!(lookup(1, &file[46..], b"refs/s/c"), hit);
    let none = LookupReply { number: 5, place: 0, name_at: 0, name_len: 0, peeled_at: 0 };
    assert_eq!(lookup(1, &file[46..], b"refs/s/b"), none);
    assert_eq!(lookup(1, &file[46..], b"refs"), LookupReply { number: 3, ..none });
    assert_eq!(lookup(1, b"rubbish\n", b"refs/s/b"), LookupReply { number: 4, ..none });
    let bad = [record(b'1', "refs/s/a", None), record(b'?', "refs/s/b", None)].concat();
    assert_eq!(lookup(1, &bad, b"refs/s/b"), LookupReply { number: 41, place: 50, ..none });
    let peeled = [&record(b'1', "refs/s/a", None)[..], &record(b'2', "refs/s/b", None), b"^x\n"].concat();
    assert_eq!(lookup(1, &peeled, b"refs/s/b"), LookupReply { number: 45, place: 50, ..none });
    assert_eq!(lookup(0, b"", b"").number, 1);
    assert_eq!(lookup(1, &too_large(), b"").number, 17);
}

#[test]
fn prefixes() {
    let file = old();
    assert_eq!(prefix(1, &file[46..], b"refs/s/b"), PrefixReply { number: 0, place: 50, text_at: 0, text_len: 0 });
    // a probe whose shape fails counts as the empty name, so the empty prefix is hit there
    let hash = [&record(b'1', "refs/s/a", None)[..], b"#x\n", &record(b'2', "refs/s/c", None)].concat();
    assert_eq!(prefix(1, &hash, b""), PrefixReply { number: 2, place: 0, text_at: 50, text_len: 2 });
    assert_eq!(prefix(0, b"", b"").number, 1);
    assert_eq!(prefix(1, b"", &too_large()).number, 17);
}

#[test]
fn asks() {
    let file = old();
    let hit = AskReply { number: 0, place: 96, line: 0, name_at: 137, name_len: 8, peeled_at: 147, text_len: 0, fault: 0 };
    assert_eq!(ask(1, &file, b"refs/s/c"), hit);
    assert_eq!(ask(1, &[&file[..], b"x\n"].concat(), b"refs/s/c"), AskReply { fault: 41, ..hit });
    let none = AskReply { number: 5, place: 0, line: 0, name_at: 0, name_len: 0, peeled_at: 0, text_len: 0, fault: 0 };
    assert_eq!(ask(1, &file, b"refs/s/b"), none);
    assert_eq!(ask(1, &file, b"refs"), AskReply { number: 3, ..none });
    assert_eq!(ask(1, b"#\n", b"refs/s/b"), AskReply { number: 2, text_len: 1, ..none });
    let bad = AskReply { number: 41, place: 188, line: 5, ..none };
    assert_eq!(ask(1, &[&file[..], b"xyz\r\n"].concat(), b"refs/s/b"), AskReply { text_len: 4, ..bad });
    assert_eq!(ask(1, &[&file[..], b"xyz"].concat(), b"refs/s/b"), AskReply { text_len: 3, ..bad });
    let twice = [&file[..], &record(b'1', "refs/s/a", None)].concat();
    assert_eq!(ask(1, &twice, b"refs/s/c"), AskReply { fault: 6, ..hit });
    assert_eq!(ask(1, &twice, b"refs/s/b"), AskReply { number: 6, place: 188, ..none });
    assert_eq!(ask(0, b"", b"").number, 1);
    assert_eq!(ask(1, &too_large(), b"").number, 17);
}

#[test]
fn merges() {
    let new = [HEADER, &record(b'1', "refs/s/a", None), &record(b'4', "refs/s/b", None)].concat();
    let none = MergeReply { number: 0, place: 0, line: 0, length: 0, text_len: 0 };

    let (mut index, mut out) = ([9; 3], [b'z'; 150]);
    assert_eq!(merge(1, &old(), &edits(), &mut index, &mut out), MergeReply { length: 146, ..none });
    assert_eq!(index, [10, 0, 9]);
    assert_eq!(out[..146], new);
    assert_eq!(out[146..], *b"zzzz");

    let (mut index, mut out) = ([9; 2], [b'z'; 145]);
    assert_eq!(merge(1, &old(), &edits(), &mut index, &mut out), MergeReply { number: 12, ..none });
    assert_eq!((index, out), ([10, 0], [b'z'; 145]));

    let run = |old: &[u8], list: &[u8], index: usize| merge(1, old, list, &mut vec![0; index], &mut [0; 500]);
    assert_eq!(run(b"#\n", b"", 0), MergeReply { number: 2, text_len: 1, ..none });
    let bad = MergeReply { number: 41, place: 188, line: 5, ..none };
    assert_eq!(run(&[&old()[..], b"xyz\r\n"].concat(), b"", 0), MergeReply { text_len: 4, ..bad });
    assert_eq!(run(&[&old()[..], b"xyz"].concat(), b"", 0), MergeReply { text_len: 3, ..bad });
    let twice = [record(b'1', "refs/s/a", None), record(b'1', "refs/s/a", None)].concat();
    assert_eq!(run(&twice, b"", 0), MergeReply { number: 6, place: 50, ..none });
    assert_eq!(run(b"", b"\x00\x03a/b\x03", 9), MergeReply { number: 7, place: 5, ..none });
    assert_eq!(run(b"", b"\x00\x03a/b\x00\x03a//", 9), MergeReply { number: 8, place: 5, ..none });
    let many: Vec<u8> = (0..4097u32).flat_map(|i| [b"\x00\x06a/".to_vec(), format!("{i:04}").into_bytes()].concat()).collect();
    assert_eq!(run(b"", &many, 9999), MergeReply { number: 9, place: 4096 * 8, ..none });
    assert_eq!(run(b"", b"\x00\x03a/b", 0), MergeReply { number: 10, ..none });
    assert_eq!(run(b"", b"\x00\x03a/b\x00\x03a/a\x00\x03a/b", 3), MergeReply { number: 11, place: 10, ..none });
    assert_eq!(run(b"", b"\x00\x03a/b", 1), MergeReply { number: 13, ..none });
    assert_eq!(run(&record(b'1', "a/b", None), b"\x00\x03a/b", 1), MergeReply { number: 14, ..none });
    assert_eq!(merge(0, b"", b"", &mut [], &mut []).number, 1);
    assert_eq!(merge(1, &too_large(), b"", &mut [], &mut []).number, 17);
}

#[test]
fn loose_contents() {
    assert_eq!(loose(1, &ONE), LooseReply { number: 0, what: 1, at: 0, len: 40 });
    assert_eq!(loose(2, &[b'a'; 64]), LooseReply { number: 0, what: 1, at: 0, len: 64 });
    assert_eq!(loose(1, b"ref:  refs/s/ab\n"), LooseReply { number: 0, what: 2, at: 6, len: 9 });
    assert_eq!(loose(1, &[b'1'; 41]), LooseReply { number: 15, what: 0, at: 0, len: 0 });
    assert_eq!(loose(1, b"ref: x\n"), LooseReply { number: 16, what: 0, at: 0, len: 0 });
    assert_eq!(loose(0, b"").number, 1);
    assert_eq!(loose(1, &too_large()).number, 17);
}
