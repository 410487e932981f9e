//! gix FILE PREFIX RUNS: how fast the Rust (gix-ref 0.67.1) is on a file as the oracle's bench/gen.py makes them: `KEY SECONDS` lines, the least of RUNS
//! runs in processor time of this thread. The same work as benchmark/ours.c's, in the same order and with the same random numbers. `./bench` builds it in a
//! copy of the oracle, in the place of its own src/bench.rs.
//! gix walk FILE RUNS: its iteration through a file of good lines or of bad ones, with the sums of what its errors tell.
use gix_object::bstr::{BString, ByteSlice};
use gix_ref::{
    FullName, FullNameRef, Target,
    packed::{self, hook},
    transaction::{Change, PreviousValue, RefEdit, RefLog},
};
use std::hint::black_box;

const KIND: gix_hash::Kind = gix_hash::Kind::Sha1;

fn now() -> f64 {
    let mut t = libc::timespec { tv_sec: 0, tv_nsec: 0 };
    // SAFETY: `t` is valid for writing.
    unsafe { libc::clock_gettime(libc::CLOCK_THREAD_CPUTIME_ID, &mut t) };
    t.tv_sec as f64 + t.tv_nsec as f64 / 1e9
}

fn best(runs: usize, mut f: impl FnMut()) -> f64 {
    let one = |_| {
        let t = now();
        f();
        now() - t
    };
    (0..runs).map(one).fold(f64::INFINITY, f64::min)
}

fn say(key: &str, seconds: f64) {
    println!("{key} {seconds:.9}");
}

/// xorshift, the same in every run.
struct Rnd(u64);
impl Rnd {
    fn below(&mut self, n: usize) -> usize {
        self.0 ^= self.0 << 13;
        self.0 ^= self.0 >> 7;
        self.0 ^= self.0 << 17;
        (self.0 % n as u64) as usize
    }
}

fn sum_of(b: &[u8]) -> u64 {
    b.iter().fold(14695981039346656037, |h, b| (h ^ u64::from(*b)).wrapping_mul(1099511628211))
}

fn iterate(file: &[u8]) -> usize {
    let mut sum = 0;
    for r in packed::Iter::new(black_box(file), KIND).expect("header") {
        let r = r.expect("good");
        sum += r.name.as_bstr().len() + r.target.len() + r.object.map_or(0, |o| o.len());
    }
    sum
}

/// Records, errors, and the sums of the errors' numbers and of their texts' lengths.
fn walk(file: &[u8]) -> [usize; 4] {
    let [mut records, mut errors, mut numbers, mut texts] = [0; 4];
    for r in packed::Iter::new(black_box(file), KIND).expect("header") {
        match r {
            Ok(r) => {
                black_box(&r);
                records += 1;
            }
            Err(packed::iter::Error::Reference { invalid_line, line_number }) => {
                errors += 1;
                numbers += line_number;
                texts += invalid_line.len();
            }
            Err(packed::iter::Error::Header { .. }) => unreachable!("only at the start"),
        }
    }
    [records, errors, numbers, texts]
}

fn run_walk(path: &str, runs: usize) {
    let file = std::fs::read(path).expect("readable file");
    let mut met = [0; 4];
    say("walk", best(runs, || met = walk(&file)));
    let [records, errors, numbers, texts] = met;
    println!("records {records}\nerrors {errors}\nsum-lines {numbers}\nsum-texts {texts}");
}

fn main() {
    let words: Vec<String> = std::env::args().collect();
    let [_, path, prefix, runs] = &words[..] else { panic!("usage: gix FILE PREFIX RUNS") };
    if path == "walk" {
        return run_walk(prefix, runs.parse().expect("a number"));
    }
    let runs: usize = runs.parse().expect("a number");
    let file = std::fs::read(path).expect("readable file");
    let names: Vec<BString> =
        packed::Iter::new(&file, KIND).expect("header").map(|r| r.expect("good").name.as_bstr().to_owned()).collect();
    let n = names.len();
    println!("records {n}");
    let s = best(runs, || {
        let (mut at, mut lines) = (0, 0usize);
        while let Some(p) = memchr::memchr(b'\n', &file[at..]) {
            at += p + 1;
            lines += 1;
        }
        black_box(lines);
    });
    say("scan", s);
    let mut sum = 0;
    say("iterate", best(runs, || sum = iterate(&file)));
    println!("sum-iterate {sum}");

    let (_, behind) = hook::header(&file).expect("header");
    let buffer = hook::raw_buffer(file[behind..].to_vec(), KIND);
    let mut rnd = Rnd(88172645463325252);
    let count = 100_000.min(n * 10);
    let present: Vec<&BString> = (0..count).map(|_| &names[rnd.below(n)]).collect();
    let absent: Vec<BString> = present.iter().map(|n| [n.as_slice(), b"x"].concat().into()).collect();
    let lookup = |name: &BString| {
        let name = <&FullNameRef>::try_from(name.as_bstr()).expect("valid");
        hook::try_find_full_name(&buffer, name).expect("good")
    };
    let s = best(runs, || {
        for name in &present {
            black_box(lookup(name)).expect("present");
        }
    });
    say("lookup-present", s / count as f64);
    let s = best(runs, || {
        for name in &absent {
            assert!(black_box(lookup(name)).is_none());
        }
    });
    say("lookup-absent", s / count as f64);
    let list = || buffer.iter_prefixed(prefix.as_str().into()).expect("no header").inspect(|r| assert!(black_box(r).is_ok())).count();
    println!("listed {}", list());
    let s = best(runs, || {
        for _ in 0..100 {
            black_box(list());
        }
    });
    say("prefix", s / 100.0);

    // Half updates of present names, a quarter new names, a quarter deletes; in shuffled order.
    for count in [100, 4000] {
        if count > n {
            continue;
        }
        let edits = || {
            let mut rnd = Rnd(88172645463325252);
            let step = n / count;
            let one = |i: usize| {
                let mut name = names[i * step].clone();
                let new = Target::Object(gix_hash::ObjectId::try_from(&[i as u8; 20][..]).expect("20 bytes"));
                let update = Change::Update { log: Default::default(), expected: PreviousValue::Any, new };
                let change = match i % 4 {
                    0 | 1 => update,
                    2 => {
                        name.push(b'x');
                        update
                    }
                    _ => Change::Delete { expected: PreviousValue::Any, log: RefLog::AndReference },
                };
                (RefEdit { change, name: FullName::try_from(name).expect("valid"), deref: false }, None)
            };
            let mut out: Vec<_> = (0..count).map(one).collect();
            for i in (1..out.len()).rev() {
                out.swap(i, rnd.below(i + 1));
            }
            out
        };
        // Setting up the buffer, the list and the memory written to isn't part of the time.
        let mut least = f64::INFINITY;
        let mut sum = 0;
        for _ in 0..runs {
            let buffer = hook::raw_buffer(file[behind..].to_vec(), KIND);
            let mut lock = gix_lock::File::with_capacity("none".into(), file.len() + count * 200);
            lock.with_mut(|o| {
                let gix_lock::Out::Memory(v) = o else { unreachable!() };
                v.resize(v.capacity(), 1);
                v.clear();
                Ok(())
            })
            .expect("memory");
            let list = edits();
            let t = now();
            assert!(hook::merge(Some(buffer), lock, list).is_ok());
            least = least.min(now() - t);
            sum = sum_of(&gix_lock::COMMITTED.take().expect("written"));
        }
        say(&format!("merge-{count}"), least);
        println!("sum-merge-{count} {sum}");
    }
}
