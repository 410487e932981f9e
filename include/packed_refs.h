/* What C calls of the packed reference table. The functions are proved: crates/host and the crates of the replies below it hold their code and their contracts.
 *
 * Lent bytes are a pointer and a length. The pointer is never NULL, also where the length is 0; bytes that a function only reads may overlap one
 * another, but an index and an output overlap nothing that is lent to the same call. Only packed_refs_merge writes, and only to its
 * index and its output. Nothing is allocated, and nothing is kept behind a call.
 *
 * Stack: packed_refs_merge takes below 80 KiB (65 KiB on x86-64: 64 KiB of them are two places for each of 4,096 edits). Every other call takes
 * below 1 KiB. Neither depends on what is lent. Functions may be called from any thread.
 *
 * An answer comes back by value. Its first field is the number:
 *
 *    0  done                                             12  new file longer than the output
 *    1  id kind neither 1 (40 hex digits) nor 2 (64)     13  nothing to do
 *    2  first byte is # and the header can't be read     14  no record remains: remove the file
 *    3  the looked-up name breaks the name rules         15  loose content unreadable
 *    4  lookup: not found, and a probed line unreadable  16  symbolic target breaks the name rules
 *    5  not found                                        17  lent bytes over 1,073,741,824
 *    6  a name not greater than the record's before it
 *    7  edit list malformed                              41  a record's id can't be read
 *    8  edit name empty, too long or breaking the rules  42  no space behind a record's id
 *    9  a 4,097th edit begins                            43  a record's line not ended properly
 *   10  index shorter than the number of edits           44  a record's name breaks the name rules
 *   11  two edits of one name                            45  a record's ^ line can't be read
 *
 * Of 41 to 45, which say what part of a record is bad, the first in that order is given. Beside them stand where the record starts, its line's number (one
 * more than the line feeds before that place) and its text: the whole line from that place on without its LF. A CR before the LF belongs to the text.
 * packed_refs_lookup, which is lent no whole file, gives the place alone.
 *
 * Every other field is 0 where its comment does not give it beside that number. Every place is counted in the bytes that were lent. */
#ifndef PACKED_REFS_H
#define PACKED_REFS_H

#include <stddef.h>
#include <stdint.h>

#ifdef __cplusplus
extern "C" {
#endif

/* ---- The header and names ---- */

struct packed_refs_header_reply {
    uint32_t number;    /* 0, 2, 17 */
    uint32_t peeled;    /* beside 0: 0 unspecified, 1 partial, 2 fully */
    uint32_t sorted;    /* beside 0: whether the header says so */
    size_t place;       /* beside 0: behind the header; 0 without one */
    size_t text_len;    /* beside 2: the length of the first line, which starts at 0 */
};
struct packed_refs_header_reply packed_refs_header(const uint8_t *file, size_t file_len);

/* The number alone: 0 a valid name, 3 none, 17. */
uint32_t packed_refs_name(const uint8_t *name, size_t name_len);

/* ---- Iteration ---- */

/* Where the iteration of a whole file starts. */
struct packed_refs_start_reply {
    uint32_t number;    /* 0, 1, 2, 17 */
    size_t place;       /* beside 0: the first step's place, behind the header */
    uint64_t line;      /* beside 0: the line that the first step is on: 1, or 2 behind a header */
    size_t text_len;    /* beside 2: the length of the first line, which starts at 0 */
};
struct packed_refs_start_reply packed_refs_start(uint32_t kind, const uint8_t *file, size_t file_len);

/* One step. A record's id stands at start and has 40 or 64 digits by its kind. The line of an error is counted in the lent bytes, whatever the place: a
 * place inside a line gives that line's number, and the text from the place on. It is counted only where there is an error to tell; who reads a whole file
 * walks. */
struct packed_refs_step_reply {
    uint32_t number;    /* 0, 1, 17 */
    uint32_t what;      /* beside 0: 0 the end, 1 a record, 2 an error */
    size_t start;       /* of a record or an error: where it starts, the place that was given */
    size_t next;        /* beside 0: the next step's place; at the end the length */
    size_t name_at;     /* of a record */
    size_t name_len;    /* of a record */
    size_t peeled_at;   /* of a record: where its peeled id stands, or 0 where it has none */
    uint32_t why;       /* of an error: 41 to 45 */
    uint64_t line;      /* of an error: its line's number; of packed_refs_walk the one that was given; of packed_refs_step_prefix 0 */
    uint64_t next_line; /* of packed_refs_walk, beside 0: the next step's line; of the other steps 0 */
    size_t text_len;    /* of an error: the length of its text, the whole line from start on without its LF */
};
struct packed_refs_step_reply packed_refs_step(uint32_t kind, const uint8_t *bytes, size_t bytes_len, size_t place);

/* The same step for who reads on, so that no line feed is counted twice: it is given the line of its place and hands on the next one's, in next_line. That
 * is the line given and the item's line feeds: a record's 1, with its ^ line 2; an error's 1, or 0 at a last line without LF. The largest number stays, and at
 * an end it is as it came. From packed_refs_start's place and line to the end, every line that it tells is the true one. */
struct packed_refs_step_reply packed_refs_walk(uint32_t kind, const uint8_t *bytes, size_t bytes_len, size_t place, uint64_t line);

/* The step with a prefix: a record whose name does not begin with it ends the iteration. A listing starts in the middle, so its errors have their place,
 * counted in all the lent bytes, and their text, but no line; also with an empty prefix. */
struct packed_refs_step_reply packed_refs_step_prefix(
    uint32_t kind, const uint8_t *bytes, size_t bytes_len, const uint8_t *prefix, size_t prefix_len, size_t place);

/* ---- The check of a whole file ---- */

struct packed_refs_check_reply {
    uint32_t number;    /* 0, 1, 2, 6, 17, 41 to 45 */
    size_t place;       /* beside 41 to 45 and 6: where the first such item starts */
    uint64_t line;      /* beside 41 to 45: its line's number */
    size_t count;       /* beside 0: how many records */
    size_t text_len;    /* beside 41 to 45: the length of its text, which starts at place; beside 2: of the first line, which starts at 0 */
};
struct packed_refs_check_reply packed_refs_check(uint32_t kind, const uint8_t *file, size_t file_len);

/* ---- Lookup ---- */

/* The start of the record that a place lies in, by line ends alone. A place beyond the end counts as the end. */
size_t packed_refs_record_start(const uint8_t *bytes, size_t bytes_len, size_t place);

/* A name in the bytes behind the header. 5 means absent only where the file passed packed_refs_check. 4 says that no record of the name was met, but a line
 * that can't be read was: packed_refs_check says which. 41 and 45 say what is bad in the record that has the name. */
struct packed_refs_lookup_reply {
    uint32_t number;    /* 0, 1, 3, 4, 5, 17, 41, 45 */
    size_t place;       /* beside 0: where the record starts, and its id; beside 41 and 45: where the record starts */
    size_t name_at;     /* beside 0 */
    size_t name_len;    /* beside 0 */
    size_t peeled_at;   /* beside 0: where the peeled id stands, or 0 where there is none */
};
struct packed_refs_lookup_reply packed_refs_lookup(
    uint32_t kind, const uint8_t *body, size_t body_len, const uint8_t *name, size_t name_len);

/* Where the listing of a prefix starts in the bytes behind the header; packed_refs_step_prefix goes on from there with the same prefix. */
struct packed_refs_prefix_reply {
    uint32_t number;    /* 0, 1, 2, 17 */
    size_t place;       /* beside 0: the first step's place */
    size_t text_at;     /* beside 2: where the text starts */
    size_t text_len;    /* beside 2 */
};
struct packed_refs_prefix_reply packed_refs_prefix(
    uint32_t kind, const uint8_t *body, size_t body_len, const uint8_t *prefix, size_t prefix_len);

/* A name in a whole file, whatever the file: 0 where a record has the name; else 5 only if the file passes the check; else what the check gives. Beside 0
 * stands whether the file passes. Where it does not, the name is charted and the record may itself be what the damage made: stop, and call someone. It
 * goes through the file at most once: to its end, unless it has met both the name and a fault before. Beside 1, 2, 3 and 17 there is no pass. */
struct packed_refs_ask_reply {
    uint32_t number;    /* 0, 1, 2, 3, 5, 6, 17, 41 to 45 */
    size_t place;       /* beside 0: where the record starts, and its id; beside 41 to 45 and 6: where the first such item starts */
    uint64_t line;      /* beside 41 to 45: its line's number */
    size_t name_at;     /* beside 0 */
    size_t name_len;    /* beside 0 */
    size_t peeled_at;   /* beside 0: where the peeled id stands, or 0 where there is none */
    size_t text_len;    /* beside 41 to 45: the length of its text, which starts at place; beside 2: of the first line, which starts at 0 */
    uint32_t fault;     /* beside 0: the number that the check gives of the whole file: 0 where it passes, else 6 or 41 to 45 */
};
struct packed_refs_ask_reply packed_refs_ask(
    uint32_t kind, const uint8_t *file, size_t file_len, const uint8_t *name, size_t name_len);

/* ---- Merge ---- */

/* An edit list is edits one after another, with nothing before, between or behind them. An edit is, byte by byte:
 *
 *   kind          1 byte: 0 delete, 1 update, 2 update with a peeled id
 *   name length   1 or 2 bytes: seven bits each, the low ones first. A first byte of 0 to 127 is the length; of 128 to 255 it is the low seven bits, and
 *                 the second byte, which is 1 to 127, says how many times 128 come to them. So 8 is 08, 127 is 7f, 128 is 80 01, and 4,096, which is
 *                 the most, is 80 20. Of the two forms the shorter one is the only one: 8 as 88 00 is malformed.
 *   name          so many bytes, which meet the name rules
 *   id            kinds 1 and 2: 20 raw bytes, or 32 where the id kind is 2. Raw means two hex digits a byte, the first digit the high half
 *   peeled id     kind 2: the same once more
 *
 * The order of the edits does not matter, and no two have one name. The empty list is zero bytes. Example: delete refs/s/c, and update refs/s/b to the
 * id of forty digits 4, in 40 bytes:
 *
 *    0  00                             delete
 *    1  08                             a name of 8 bytes
 *    2  72 65 66 73 2f 73 2f 63        refs/s/c
 *   10  01                             update
 *   11  08                             a name of 8 bytes
 *   12  72 65 66 73 2f 73 2f 62        refs/s/b
 *   20  44 44 44 44 44 44 44 44 44 44  the id's first ten bytes
 *   30  44 44 44 44 44 44 44 44 44 44  and the other ten
 *
 * On the old file `1* refs/s/a`, `2* refs/s/c` (where 1* is forty digits 1) that leaves in out the header's 46 bytes, `1* refs/s/a` and `4* refs/s/b`,
 * 146 in all, and in index the places 10 and 0. */

/* The old file and the edits give a new file in out. Beside 0 and from number 11 on in the order of refusals, the index's first entries hold the
 * edits' places in name order. The output is written beside 0 only, and not behind the new file's length. Lengths are counts of entries: an index of
 * 4,096 entries always suffices, and so does an output of 46 bytes, the old file's length and twice the list's. */
struct packed_refs_merge_reply {
    uint32_t number;    /* 0, 1, 2, 6 to 14, 17, 41 to 45 */
    size_t place;       /* beside 41 to 45 and 6: where the item starts in old; beside 7, 8, 9 and 11: where the edit starts in edits */
    uint64_t line;      /* beside 41 to 45: its line's number in old */
    size_t length;      /* beside 0: the new file's length */
    size_t text_len;    /* beside 41 to 45: the length of its text, which starts at place in old; beside 2: of old's first line, which starts at 0 */
};
struct packed_refs_merge_reply packed_refs_merge(
    uint32_t kind, const uint8_t *old, size_t old_len, const uint8_t *edits, size_t edits_len, uint32_t *index, size_t index_len, uint8_t *out,
    size_t out_len);

/* ---- Loose content ---- */

struct packed_refs_loose_reply {
    uint32_t number;    /* 0, 1, 15, 16, 17 */
    uint32_t what;      /* beside 0: 1 an id, 2 the name of another reference */
    size_t at;          /* beside 0: where it stands; an id stands at 0 */
    size_t len;         /* beside 0 */
};
struct packed_refs_loose_reply packed_refs_loose(uint32_t kind, const uint8_t *content, size_t content_len);

#ifdef __cplusplus
}
#endif

#endif
