//! The boundary: the proved library's functions as they are, with slices in the place of pointers and lengths.
//!
//! This is the only module with `unsafe`. A slice is lent as its pointer and its length for the time of the call, and a slice that is lent for
//! writing is lent alone: Rust's own references see to both. The functions are total, so nothing is asked of the bytes. An answer's first field is
//! the number of docs/NUMBERS.md; a field that is not given beside that number is 0. Every place is counted in the bytes that were lent.
//!
//! The rest of the crate is the comfortable form of these. Field by field they are declared in include/packed_refs.h and, with their
//! contracts, in crates/host and the crates of the replies below it; tests/sys.rs calls each.

/// What [`header`] gives.
#[repr(C)]
#[derive(Clone, Copy, Debug, PartialEq, Eq)]
#[must_use = "its first field says whether the rest is an answer"]
pub struct HeaderReply {
    /// 0, 2 or 17.
    pub number: u32,
    /// 0 unspecified, 1 partial, 2 fully.
    pub peeled: u32,
    /// 1 where the header says `sorted`.
    pub sorted: u32,
    /// Behind the header; 0 without one.
    pub place: usize,
    /// The length of number 2's text, which starts at 0.
    pub text_len: usize,
}

/// What [`start`] gives.
#[repr(C)]
#[derive(Clone, Copy, Debug, PartialEq, Eq)]
#[must_use = "its first field says whether the rest is an answer"]
pub struct StartReply {
    /// 0, 1, 2 or 17.
    pub number: u32,
    /// Behind the header.
    pub place: usize,
    /// The line that the first item is on: 1, or 2 behind a header.
    pub line: u64,
    /// The length of number 2's text, which starts at 0.
    pub text_len: usize,
}

/// What [`step`], [`walk`] and [`step_prefix`] give.
#[repr(C)]
#[derive(Clone, Copy, Debug, PartialEq, Eq)]
#[must_use = "its first field says whether the rest is an answer"]
pub struct StepReply {
    /// 0, 1 or 17.
    pub number: u32,
    /// 0 the end, 1 a record, 2 an error.
    pub what: u32,
    /// Where the item starts: a record's id, or an error's text.
    pub start: usize,
    /// The place for the next step.
    pub next: usize,
    /// Where a record's name stands.
    pub name_at: usize,
    /// How long it is.
    pub name_len: usize,
    /// Where a record's peeled id stands; 0 where there is none.
    pub peeled_at: usize,
    /// Which part of a record is bad, of an error: 41 to 45.
    pub why: u32,
    /// An error's line: counted by [`step`], as it was given to [`walk`], 0 from [`step_prefix`].
    pub line: u64,
    /// The line for the next [`walk`]; 0 from the other steps.
    pub next_line: u64,
    /// The length of an error's text: the whole line from `start` on without its LF.
    pub text_len: usize,
}

/// What [`check`] gives.
#[repr(C)]
#[derive(Clone, Copy, Debug, PartialEq, Eq)]
#[must_use = "its first field says whether the rest is an answer"]
pub struct CheckReply {
    /// 0, 1, 2, 6, 17 or 41 to 45.
    pub number: u32,
    /// Where the item of 6 or of 41 to 45 starts.
    pub place: usize,
    /// The line of 41 to 45.
    pub line: u64,
    /// How many records.
    pub count: usize,
    /// The length of the text of 41 to 45, which starts at `place`, or of number 2's, which starts at 0.
    pub text_len: usize,
}

/// What [`lookup`] gives.
#[repr(C)]
#[derive(Clone, Copy, Debug, PartialEq, Eq)]
#[must_use = "its first field says whether the rest is an answer"]
pub struct LookupReply {
    /// 0, 1, 3, 4, 5, 17, 41 or 45.
    pub number: u32,
    /// Where the record starts, which is where its id stands; beside 41 and 45 too.
    pub place: usize,
    /// Where its name stands.
    pub name_at: usize,
    /// How long that is.
    pub name_len: usize,
    /// Where its peeled id stands; 0 where there is none.
    pub peeled_at: usize,
}

/// What [`prefix`] gives.
#[repr(C)]
#[derive(Clone, Copy, Debug, PartialEq, Eq)]
#[must_use = "its first field says whether the rest is an answer"]
pub struct PrefixReply {
    /// 0, 1, 2 or 17.
    pub number: u32,
    /// The place for the first step.
    pub place: usize,
    /// Where number 2's text starts.
    pub text_at: usize,
    /// How long that is.
    pub text_len: usize,
}

/// What [`ask`] gives.
#[repr(C)]
#[derive(Clone, Copy, Debug, PartialEq, Eq)]
#[must_use = "its first field says whether the rest is an answer"]
pub struct AskReply {
    /// 0, 1, 2, 3, 5, 6, 17 or 41 to 45.
    pub number: u32,
    /// Where the record starts, which is where its id stands, or the item of 6 or of 41 to 45.
    pub place: usize,
    /// The line of 41 to 45.
    pub line: u64,
    /// Where its name stands.
    pub name_at: usize,
    /// How long that is.
    pub name_len: usize,
    /// Where its peeled id stands; 0 where there is none.
    pub peeled_at: usize,
    /// The length of the text of 41 to 45, which starts at `place`, or of number 2's, which starts at 0.
    pub text_len: usize,
    /// Beside 0: what the check gives of the whole file. 0 where it passes, else 6 or 41 to 45.
    pub fault: u32,
}

/// What [`merge`] gives.
#[repr(C)]
#[derive(Clone, Copy, Debug, PartialEq, Eq)]
#[must_use = "its first field says whether the rest is an answer"]
pub struct MergeReply {
    /// 0, or any of 1, 2, 6 to 14, 17, 41 to 45.
    pub number: u32,
    /// Where the item of 6 or of 41 to 45 starts in the old file, or the edit of 7, 8, 9 or 11 in the list.
    pub place: usize,
    /// The line of 41 to 45 in the old file.
    pub line: u64,
    /// The new file's length.
    pub length: usize,
    /// The length of the text of 41 to 45, which starts at `place` in the old file, or of number 2's, which starts at 0 there.
    pub text_len: usize,
}

/// What [`loose`] gives.
#[repr(C)]
#[derive(Clone, Copy, Debug, PartialEq, Eq)]
#[must_use = "its first field says whether the rest is an answer"]
pub struct LooseReply {
    /// 0, 1, 15, 16 or 17.
    pub number: u32,
    /// 1 an id, 2 the name of another reference.
    pub what: u32,
    /// Where it stands.
    pub at: usize,
    /// How long it is.
    pub len: usize,
}

mod c {
    use super::*;

    extern "C" {
        pub fn packed_refs_header(file: *const u8, len: usize) -> HeaderReply;
        pub fn packed_refs_name(name: *const u8, len: usize) -> u32;
        pub fn packed_refs_start(kind: u32, file: *const u8, len: usize) -> StartReply;
        pub fn packed_refs_step(kind: u32, bytes: *const u8, len: usize, place: usize) -> StepReply;
        pub fn packed_refs_walk(kind: u32, bytes: *const u8, len: usize, place: usize, line: u64) -> StepReply;
        pub fn packed_refs_step_prefix(
            kind: u32,
            bytes: *const u8,
            len: usize,
            prefix: *const u8,
            prefix_len: usize,
            place: usize,
        ) -> StepReply;
        pub fn packed_refs_check(kind: u32, file: *const u8, len: usize) -> CheckReply;
        pub fn packed_refs_record_start(bytes: *const u8, len: usize, place: usize) -> usize;
        pub fn packed_refs_lookup(kind: u32, body: *const u8, len: usize, name: *const u8, name_len: usize) -> LookupReply;
        pub fn packed_refs_prefix(kind: u32, body: *const u8, len: usize, prefix: *const u8, prefix_len: usize) -> PrefixReply;
        pub fn packed_refs_ask(kind: u32, file: *const u8, len: usize, name: *const u8, name_len: usize) -> AskReply;
        pub fn packed_refs_merge(
            kind: u32,
            old: *const u8,
            old_len: usize,
            edits: *const u8,
            edits_len: usize,
            index: *mut u32,
            index_len: usize,
            out: *mut u8,
            out_len: usize,
        ) -> MergeReply;
        pub fn packed_refs_loose(kind: u32, content: *const u8, len: usize) -> LooseReply;
    }
}

/// The header of a file.
pub fn header(file: &[u8]) -> HeaderReply {
    // SAFETY: here and below, each pointer and length come from one slice that is borrowed until the call returns.
    unsafe { c::packed_refs_header(file.as_ptr(), file.len()) }
}

/// Whether a name meets the name rules: 0, 3 or 17.
#[must_use]
pub fn name(name: &[u8]) -> u32 {
    unsafe { c::packed_refs_name(name.as_ptr(), name.len()) }
}

/// Where the iteration of a whole file starts.
pub fn start(kind: u32, file: &[u8]) -> StartReply {
    unsafe { c::packed_refs_start(kind, file.as_ptr(), file.len()) }
}

/// One step from any place. It counts the line of an error in the lent bytes: who reads a whole file walks.
pub fn step(kind: u32, bytes: &[u8], place: usize) -> StepReply {
    unsafe { c::packed_refs_step(kind, bytes.as_ptr(), bytes.len(), place) }
}

/// One step of who reads on: it is given the line of its place, and hands on the next one's.
pub fn walk(kind: u32, bytes: &[u8], place: usize, line: u64) -> StepReply {
    unsafe { c::packed_refs_walk(kind, bytes.as_ptr(), bytes.len(), place, line) }
}

/// One step with a prefix: a good record whose name does not begin with it ends the iteration. It tells no line.
pub fn step_prefix(kind: u32, bytes: &[u8], prefix: &[u8], place: usize) -> StepReply {
    unsafe { c::packed_refs_step_prefix(kind, bytes.as_ptr(), bytes.len(), prefix.as_ptr(), prefix.len(), place) }
}

/// The check of a whole file.
pub fn check(kind: u32, file: &[u8]) -> CheckReply {
    unsafe { c::packed_refs_check(kind, file.as_ptr(), file.len()) }
}

/// The start of the record that a place lies in.
#[must_use]
pub fn record_start(bytes: &[u8], place: usize) -> usize {
    unsafe { c::packed_refs_record_start(bytes.as_ptr(), bytes.len(), place) }
}

/// Lookup of a name in the bytes behind a header. On bytes that nobody checked its 5 is not worth *absent*.
pub fn lookup(kind: u32, body: &[u8], name: &[u8]) -> LookupReply {
    unsafe { c::packed_refs_lookup(kind, body.as_ptr(), body.len(), name.as_ptr(), name.len()) }
}

/// Where the listing of a prefix starts in the bytes behind a header.
pub fn prefix(kind: u32, body: &[u8], prefix: &[u8]) -> PrefixReply {
    unsafe { c::packed_refs_prefix(kind, body.as_ptr(), body.len(), prefix.as_ptr(), prefix.len()) }
}

/// The lookup that can be trusted on any bytes, with what the check gives of them.
pub fn ask(kind: u32, file: &[u8], name: &[u8]) -> AskReply {
    unsafe { c::packed_refs_ask(kind, file.as_ptr(), file.len(), name.as_ptr(), name.len()) }
}

/// The merge of an old file and an edit list. Nothing but the index and the output is written to.
pub fn merge(kind: u32, old: &[u8], edits: &[u8], index: &mut [u32], out: &mut [u8]) -> MergeReply {
    // SAFETY: as above; `index` and `out` are borrowed for writing, so they overlap nothing.
    unsafe {
        c::packed_refs_merge(
            kind,
            old.as_ptr(),
            old.len(),
            edits.as_ptr(),
            edits.len(),
            index.as_mut_ptr(),
            index.len(),
            out.as_mut_ptr(),
            out.len(),
        )
    }
}

/// The content of a loose reference.
pub fn loose(kind: u32, content: &[u8]) -> LooseReply {
    unsafe { c::packed_refs_loose(kind, content.as_ptr(), content.len()) }
}
