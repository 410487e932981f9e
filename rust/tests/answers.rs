//! The comfortable form on hand-made files, and against a plain model on thousands of made-up ones.
use packed_refs::*;
use std::collections::BTreeMap;

const KIND: IdKind = IdKind::Sha1;

fn id(digit: char) -> String {
    digit.to_string().repeat(40)
}

fn file(lines: &[String]) -> Vec<u8> {
    lines.concat().into_bytes()
}

#[test]
fn a_record_borrows_its_parts() {
    let bytes = file(&[format!("{} refs/s/a\r\n^{}\r\n", id('A'), id('b'))]);
    let table = Table::check(KIND, &bytes).unwrap();
    let Ok(Found::Charted(record)) = table.find(b"refs/s/a") else { panic!() };
    assert_eq!(record.name.as_ptr(), bytes[41..].as_ptr());
    assert_eq!((record.id, record.peeled), (id('A').as_bytes(), Some(id('b').as_bytes())));
    assert_eq!(record.place, 0);
}

#[test]
fn places_are_counted_in_the_whole_file() {
    let header = "# pack-refs with: sorted \n";
    let bytes = file(&[header.into(), format!("{} refs/s/a\n", id('1')), format!("{} refs/s/b\n", id('2'))]);
    let table = Table::check(KIND, &bytes).unwrap();
    let expected = header.len() + 50;
    for answer in [table.find(b"refs/s/b").map(Asked::from), ask(KIND, &bytes, b"refs/s/b")] {
        let Ok(Asked::Charted(record)) = answer else { panic!() };
        assert_eq!(record.place, expected);
        assert_eq!(&bytes[record.place..record.place + 40], id('2').as_bytes());
    }
    assert_eq!(table.records().map(|r| r.place).collect::<Vec<_>>(), [header.len(), expected]);
    assert_eq!(table.with_prefix(b"refs/s/b").unwrap().next().unwrap().place, expected);
    assert_eq!(table.table().items().unwrap().line(), Some(2));
}

#[test]
fn what_cannot_be_read_is_never_absent() {
    let a = format!("{} refs/s/a\n", id('1'));
    let c = format!("{} refs/s/c\n", id('3'));
    for (damaged, number) in [
        (format!("{} refs/s/b\n", &id('2')[1..]), 41),   // a digit short
        (format!("{} refs/s/b\n", id('g')), 41),         // no digits
        (format!("{}0 refs/s/b\n", id('2')), 42),        // a digit too many
        (format!("{}  refs/s/b\n", id('2')), 44),        // two spaces
        (format!("{} refs/s/b\rx\n", id('2')), 43),      // a bare CR
        (format!("{} refs/s/b\n^zz\n", id('2')), 45),    // a bad peeled line
        (format!("{} refs/s/..\n", id('2')), 44),        // a bad name
        ("\n".to_string(), 41),                          // an empty line
        ("# pack-refs with: sorted \n".to_string(), 41), // a second header
        (format!("{} refs/r/a\n", id('2')), 6),          // out of order
        (format!("{} refs/s/a\n", id('2')), 6),          // twice
    ] {
        let bytes = file(&[a.clone(), damaged.clone(), c.clone()]);
        assert_eq!(Table::check(KIND, &bytes).unwrap_err().number(), number, "{damaged:?}");
        let error = ask(KIND, &bytes, b"refs/s/b").unwrap_err();
        assert_eq!((error.number(), error.place()), (number, Some(50)), "{damaged:?}");
        // what stands before the damage and behind it is charted, and that the file is damaged is said beside it
        for name in ["refs/s/a", "refs/s/c"] {
            let Ok(Asked::ChartedInDamagedFile { record, fault }) = ask(KIND, &bytes, name.as_bytes()) else { panic!("{damaged:?}") };
            assert_eq!((record.name, fault.number()), (name.as_bytes(), number), "{damaged:?}");
        }
    }
    // a file cut short
    let bytes = file(&[a, c]);
    for end in 1..bytes.len() {
        if end != 50 {
            let part = [41, 42, 43][usize::from(end % 50 >= 40) + usize::from(end % 50 > 40)];
            assert_eq!(ask(KIND, &bytes[..end], b"refs/s/z").unwrap_err().number(), part, "cut at {end}");
        }
    }
}

/// A name of which a part ends with `.lock`, in each place where a name can stand; and names that only nearly are so.
#[test]
fn lock_names() {
    let night = file(&[format!("{} refs/s/a\n", id('1'))]);
    let checked = Table::check(KIND, &night).unwrap();
    for (name, is_valid) in [
        ("refs/e3.lock/a", false),
        ("refs.lock/e3/a", false),
        ("refs/e3/a.lock", false),
        ("refs/.lock/a", false),
        ("refs/e3.lockb/a", true),
        ("refs/e3.lock.b/a", true),
        ("refs/e3.loc/k", true),
    ] {
        let record = file(&[format!("{} {name}\n", id('1'))]);
        let delete = [&[0, name.len() as u8], name.as_bytes()].concat();
        let target = format!("ref: {name}\n");
        let said = [
            check_name(name).err(),
            checked.find(name).err(),
            ask(KIND, &night, name).err(),
            Table::check(KIND, &record).err(),
            merge(&night, &Edits::from_bytes(KIND, delete)).err(),
            loose(KIND, target.as_bytes()).err(),
        ];
        let numbers = if is_valid { [0; 6] } else { [3, 3, 3, 44, 8, 16] };
        assert_eq!(said.map(|error| error.map_or(0, |error| error.number())), numbers, "{name}");
    }
}

#[test]
fn glances() {
    let bytes = file(&[format!("{} refs/s/a\n", id('1')), format!("{} refs/s/b\n", id('?'))]);
    let table = Table::new(KIND, &bytes);
    assert!(matches!(table.glance(b"refs/s/a"), Ok(Glance::Charted(_))));
    let Ok(Glance::Unreadable(hit)) = table.glance(b"refs/s/b") else { panic!() };
    assert_eq!((hit.number(), hit.place()), (41, Some(50)));
    assert_eq!(table.glance(b"refs/s/c"), Ok(Glance::NotFound));
    assert_eq!(table.glance(b"refs").unwrap_err().number(), 3);
    let Ok(Glance::Unreadable(miss)) = Table::new(KIND, b"rubbish\n").glance(b"refs/s/a") else { panic!() };
    assert_eq!((miss.number(), miss.place()), (4, None));
    // a hit at the very front has its place as any other, in the whole file
    for header in ["", "# pack-refs with: \n"] {
        let front = file(&[header.into(), format!("{} refs/s/a\n", id('?'))]);
        let Ok(Glance::Unreadable(hit)) = Table::new(KIND, &front).glance(b"refs/s/a") else { panic!() };
        assert_eq!((hit.number(), hit.place()), (41, Some(header.len())));
    }
    assert_eq!(Table::new(KIND, b"#\n").glance(b"refs/s/a").unwrap_err().number(), 2);
}

#[test]
fn errors_say_what_to_do() {
    let errors = [
        header(b"# what\x1b[2J\n").unwrap_err(),
        check_name(b"x").unwrap_err(),
        Table::check(KIND, b"x\n").unwrap_err(),
        merge(b"", &Edits::from_bytes(KIND, [9])).unwrap_err(),
        merge(b"", &Edits::from_bytes(KIND, b"\x00\x01x".to_vec())).unwrap_err(),
        merge(b"", &Edits::from_bytes(KIND, b"\x00\x03a/b\x00\x03a/b".to_vec())).unwrap_err(),
        loose(KIND, b"").unwrap_err(),
        loose(KIND, b"ref: x").unwrap_err(),
    ];
    for (error, number) in errors.iter().zip([2, 3, 41, 7, 8, 11, 15, 16]) {
        assert_eq!(error.number(), number);
        let words = error.to_string();
        assert!(words.starts_with(&format!("number {number}: ")), "{words}");
        assert!(words.ends_with(&format!(". {}", error.what_to_do())), "{words}");
        assert!(!words.contains('\x1b'));
    }
    assert_eq!(errors[0].text(), b"# what\x1b[2J");
    // of a very long line the front is kept
    for (len, kept) in [(300, 300), (9000, 8192)] {
        let [no_header, no_record] = [b'#', b'x'].map(|byte| [&vec![byte; len][..], b"\n"].concat());
        for error in [header(no_header).unwrap_err(), Table::check(KIND, &no_record).unwrap_err()] {
            assert_eq!((error.text().len(), error.text_len()), (kept, len));
        }
    }
}

#[test]
fn debug_prints_no_file() {
    let bytes = format!("{} refs/s/{}\n", id('1'), "x".repeat(100_000)).repeat(2).into_bytes();
    let (first, second) = bytes.split_at(bytes.len() / 2);
    let table = Table::check(KIND, first).unwrap();
    let wild = [&b"# \x1b[2J"[..], &bytes].concat();
    let mut edits = Edits::new(KIND);
    edits.update("refs/s/a", id('1')).unwrap();
    let all = [
        format!("{table:?} {:?}", table.table()),
        format!("{:?} {:?}", table.records(), table.table().items().unwrap()),
        format!("{:?}", table.find(&second[41..second.len() - 1])),
        format!("{:?}", table.with_prefix(&second[41..])),
        format!("{:?} {:?}", Table::check(KIND, &wild), Table::new(KIND, second).glance("refs/s/a")),
        format!("{:?}", Table::new(KIND, &wild[3..]).items().unwrap().next()),
        format!("{:?} {:?}", edits, merge(first, &edits)),
        format!("{:?}", TableFile::new(KIND, first)),
        format!("{:?}", TableFile::new(KIND, first).check()),
        format!("{:?}", loose(KIND, &[&b"ref: "[..], &second[41..]].concat())),
        format!("{:?}", Escaped(second)),
    ];
    for shown in all {
        assert!(shown.len() < 700, "{} bytes: {}", shown.len(), &shown[..700]);
        assert!(!shown.contains('\x1b'), "{shown}");
    }
}

#[test]
fn sha256() {
    let (a, b) = ("a".repeat(64), "b".repeat(64));
    let mut edits = Edits::new(IdKind::Sha256);
    edits.update_peeled(b"refs/s/a", a.as_bytes(), b.as_bytes()).unwrap();
    let Ok(Merged::New(new)) = merge(b"", &edits) else { panic!() };
    let Ok(Asked::Charted(record)) = ask(IdKind::Sha256, &new, b"refs/s/a") else { panic!() };
    assert_eq!((record.id, record.peeled), (a.as_bytes(), Some(b.as_bytes())));
    assert_eq!(Table::check(KIND, &new).unwrap_err().number(), 42);
    assert_eq!(edits.update(b"refs/s/b", id('1').as_bytes()).unwrap_err().number(), 7);
}

#[test]
fn lengths_of_edit_names() {
    for (len, groups) in [(8, &[8][..]), (127, &[127]), (128, &[128, 1]), (4096, &[128, 32])] {
        let name = format!("a/{}", "b".repeat(len - 2));
        let mut edits = Edits::new(KIND);
        edits.delete(name.as_bytes()).unwrap();
        assert_eq!(edits.bytes()[1..1 + groups.len()], *groups);
        assert_eq!(merge(b"", &edits), Ok(Merged::NothingToDo));
    }
    let name = format!("a/{}", "b".repeat(4095));
    assert_eq!(Edits::new(KIND).delete(name.as_bytes()).unwrap_err().number(), 8);
}

#[test]
fn as_many_edits_as_are_taken() {
    // the longest output that a list can make: every edit an update with a peeled id, on names of three bytes and of 4,096
    for len in [3, 4096] {
        let mut edits = Edits::new(KIND);
        for i in 0..4096u32 {
            let digits = format!("{:0width$}", i, width = len - 2);
            let tail = if len == 3 { char::from_u32(0x100 + i).unwrap().to_string() } else { digits };
            edits.update_peeled(format!("a/{tail}").as_bytes(), id('1').as_bytes(), id('2').as_bytes()).unwrap();
        }
        let Ok(Merged::New(new)) = merge(b"", &edits) else { panic!() };
        assert_eq!(Table::check(KIND, &new).unwrap().len(), 4096);
        edits.delete(b"b/b").unwrap();
        assert_eq!(merge(b"", &edits).unwrap_err().number(), 9);
    }
}

/// Numbers that look random and are the same at each run.
struct Dice(u64);

impl Dice {
    fn below(&mut self, n: usize) -> usize {
        self.0 ^= self.0 << 13;
        self.0 ^= self.0 >> 7;
        self.0 ^= self.0 << 17;
        (self.0 >> 11) as usize % n
    }
}

type Model = BTreeMap<String, (String, Option<String>)>;

fn write_out(model: &Model, header: &str, end: &str) -> Vec<u8> {
    let mut text = header.to_string();
    for (name, (id, peeled)) in model {
        text += &format!("{id} {name}{end}");
        if let Some(peeled) = peeled {
            text += &format!("^{peeled}{end}");
        }
    }
    text.into_bytes()
}

fn some_name(dice: &mut Dice) -> String {
    let parts = ["a", "b", "ab", "zz", "\u{e4}", "o118", "a.b"];
    let mut name = "refs".to_string();
    for _ in 0..1 + dice.below(3) {
        name += "/";
        name += parts[dice.below(parts.len())];
    }
    name
}

fn some_id(dice: &mut Dice) -> String {
    (0..40).map(|_| char::from(b"0123456789abcdef"[dice.below(16)])).collect()
}

fn some_model(dice: &mut Dice) -> Model {
    let mut model = Model::new();
    for _ in 0..dice.below(9) {
        let peeled = (dice.below(3) == 0).then(|| some_id(dice));
        model.insert(some_name(dice), (some_id(dice), peeled));
    }
    model
}

const HEADER: &str = "# pack-refs with: peeled fully-peeled sorted \n";

#[test]
fn merges_are_what_a_map_says() {
    let mut dice = Dice(0x9e37_79b9_7f4a_7c15);
    for _ in 0..3000 {
        let old = some_model(&mut dice);
        let header = ["", HEADER, "# pack-refs with: \r\n"][dice.below(3)];
        let bytes = write_out(&old, header, ["\n", "\r\n"][dice.below(2)]);
        let (mut new, mut edits) = (old.clone(), Edits::new(KIND));
        let mut named = std::collections::BTreeSet::new();
        let mut still = true;
        for _ in 0..dice.below(6) {
            let name = some_name(&mut dice);
            if !named.insert(name.clone()) {
                continue;
            }
            let (id, peeled) = (some_id(&mut dice), some_id(&mut dice));
            match dice.below(3) {
                0 => {
                    edits.delete(name.as_bytes()).unwrap();
                    still &= new.remove(&name).is_none();
                }
                1 => {
                    edits.update(name.as_bytes(), id.to_uppercase().as_bytes()).unwrap();
                    new.insert(name, (id, None));
                    still = false;
                }
                _ => {
                    edits.update_peeled(name.as_bytes(), id.as_bytes(), peeled.as_bytes()).unwrap();
                    new.insert(name, (id, Some(peeled)));
                    still = false;
                }
            }
        }
        let expected = match (still, new.is_empty()) {
            (true, _) => Merged::NothingToDo,
            (_, true) => Merged::RemoveFile,
            _ => Merged::New(write_out(&new, HEADER, "\n")),
        };
        assert_eq!(merge(&bytes, &edits), Ok(expected));
    }
}

#[test]
fn lookups_agree_on_good_and_on_damaged_files() {
    let mut dice = Dice(0x2545_f491_4f6c_dd1d);
    let (mut passed, mut refused) = (0, 0);
    for _ in 0..5000 {
        let model = some_model(&mut dice);
        let mut bytes = write_out(&model, ["", HEADER][dice.below(2)], ["\n", "\r\n"][dice.below(2)]);
        for _ in 0..dice.below(3) {
            if !bytes.is_empty() {
                let at = dice.below(bytes.len());
                bytes[at] = b"\n\r ^#/.a1g\x00\xff"[dice.below(12)];
            }
        }
        let name = some_name(&mut dice);
        let told = ask(KIND, &bytes, name.as_bytes());
        let table = Table::new(KIND, &bytes);
        let items = table.items();
        let named = items.clone().ok().and_then(|items| items.flatten().find(|record| record.name == name.as_bytes()));
        match Table::check(KIND, &bytes) {
            Ok(checked) => {
                passed += 1;
                assert_eq!(told, checked.find(name.as_bytes()).map(Asked::from));
                let all: Vec<_> = items.clone().unwrap().map(Result::unwrap).collect();
                assert_eq!(checked.records().collect::<Vec<_>>(), all);
                assert_eq!(checked.len(), all.len());
                let prefix = &name.as_bytes()[..dice.below(name.len() + 1)];
                let begins = all.iter().filter(|record| record.name.starts_with(prefix)).copied();
                assert_eq!(checked.with_prefix(prefix).unwrap().collect::<Vec<_>>(), begins.collect::<Vec<_>>());
                match told.unwrap() {
                    Asked::Charted(record) => assert_eq!(Some(record), named),
                    Asked::ChartedInDamagedFile { .. } => panic!("a fault in a file that passes the check"),
                    Asked::Absent => assert_eq!(None, named),
                }
            }
            Err(error) => {
                refused += 1;
                match told {
                    Ok(Asked::Charted(_)) => panic!("no fault in a file that fails the check"),
                    Ok(Asked::ChartedInDamagedFile { record, fault }) => assert_eq!((Some(record), fault), (named, error.reason())),
                    Ok(Asked::Absent) => panic!("absent in a file that fails the check"),
                    Err(other) => {
                        assert_eq!(error, other);
                        assert_eq!(None, named);
                    }
                }
                let _ = table.glance(name.as_bytes());
            }
        }
        // every byte behind the header lies in exactly one item
        if let Ok(mut items) = table.items() {
            let mut at = items.place();
            while let Some(item) = items.next() {
                let start = match item {
                    Ok(record) => record.place,
                    Err(damage) => damage.place,
                };
                assert_eq!(start, at);
                at = items.place();
                assert!(at > start);
            }
            assert_eq!(at, bytes.len());
        }
    }
    assert!(passed > 1000 && refused > 1000, "{passed} passed, {refused} refused");
}

#[test]
fn many_names_are_told_what_each_is_told() {
    let mut dice = Dice(0x1234_5678_9abc_def1);
    let (mut passed, mut refused, mut charted) = (0, 0, 0);
    for _ in 0..3000 {
        let model = some_model(&mut dice);
        let mut bytes = write_out(&model, ["", HEADER, "# other\n"][dice.below(7) / 3], ["\n", "\r\n"][dice.below(2)]);
        for _ in 0..dice.below(3) {
            if !bytes.is_empty() {
                let at = dice.below(bytes.len());
                bytes[at] = b"\n\r ^#/.a1g\x00\xff"[dice.below(12)];
            }
        }
        if dice.below(4) == 0 {
            // names twice, and out of order
            bytes.extend_from_within(..);
        }
        let mut names: Vec<String> = (0..dice.below(8)).map(|_| some_name(&mut dice)).collect();
        names.extend(["refs//x".to_string(), String::new()].into_iter().take(dice.below(3)));
        names.extend(names.first().cloned());
        let each: Vec<_> = names.iter().map(|name| ask(KIND, &bytes, name)).collect();
        assert_eq!(ask_many(KIND, &bytes, &names), each);
        assert_eq!(TableFile::new(KIND, bytes.clone()).ask_many(&names), each);
        charted += each.iter().filter(|told| matches!(told, Ok(Asked::Charted(_) | Asked::ChartedInDamagedFile { .. }))).count();
        match Table::check(KIND, &bytes) {
            Ok(_) => passed += 1,
            Err(_) => refused += 1,
        }
    }
    assert!(passed > 500 && refused > 500 && charted > 500, "{passed} passed, {refused} refused, {charted} charted");
    // 1 byte over the limit: 17 before 3. It is never touched, so it costs no memory.
    let large = vec![0; LARGEST_INPUT + 1];
    let names = ["refs/s/a", "refs//a"];
    assert_eq!(ask_many(KIND, &large, &names), names.map(|name| ask(KIND, &large, name)));
    assert_eq!(ask_many(KIND, b"", &[&large]), [ask(KIND, b"", &large)]);
    assert_eq!(ask_many(KIND, b"x\n", &[&large]), [ask(KIND, b"x\n", &large)]);
}
