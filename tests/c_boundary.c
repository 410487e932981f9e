/* Calls every function of include/packed_refs.h and compares each field of each answer. Run by c_boundary.sh. */
#include "packed_refs.h"

#include <stdio.h>
#include <stdlib.h>
#include <string.h>

static int failures = 0;

static void same(int line, const char *what, uint64_t got, uint64_t want)
{
    if (got == want)
        return;
    printf("line %d: %s is %llu, not %llu\n", line, what, (unsigned long long)got, (unsigned long long)want);
    failures++;
}

#define SAME(got, want) same(__LINE__, #got, (uint64_t)(got), (uint64_t)(want))

/* Bytes and their length, as two arguments. */
#define BYTES(text) (const uint8_t *)(text), sizeof(text) - 1

#define ONES "1111111111111111111111111111111111111111"
#define TWOS "2222222222222222222222222222222222222222"
#define THREES "3333333333333333333333333333333333333333"
#define FOURS "4444444444444444444444444444444444444444"
#define NO_ID "xxxxxxxxxxxxxxxxxxxxxxxxxxxxxxxxxxxxxxxx"
#define LONG_ONES ONES "111111111111111111111111"
#define LONG_TWOS TWOS "222222222222222222222222"
#define HEADER "# pack-refs with: peeled fully-peeled sorted \n"
#define LINE_A ONES " refs/s/a\n"
#define LINE_C TWOS " refs/s/c\n^" THREES "\n"
#define OLD HEADER LINE_A LINE_C

/* One byte over the size limit. */
static const uint8_t *large;
#define LARGE large, (size_t)1073741825

static void header(int line, struct packed_refs_header_reply r, uint32_t number, uint32_t peeled, uint32_t sorted, size_t place, size_t text_len)
{
    same(line, "number", r.number, number);
    same(line, "peeled", r.peeled, peeled);
    same(line, "sorted", r.sorted, sorted);
    same(line, "place", r.place, place);
    same(line, "text_len", r.text_len, text_len);
}

static void test_header(void)
{
    header(__LINE__, packed_refs_header(BYTES("")), 0, 0, 0, 0, 0);
    header(__LINE__, packed_refs_header(BYTES(LINE_A)), 0, 0, 0, 0, 0);
    header(__LINE__, packed_refs_header(BYTES(OLD)), 0, 2, 1, 46, 0);
    header(__LINE__, packed_refs_header(BYTES("# pack-refs with: peeled \n")), 0, 1, 0, 26, 0);
    header(__LINE__, packed_refs_header(BYTES("# pack-refs with: sorted\r\n")), 0, 0, 1, 26, 0);
    header(__LINE__, packed_refs_header(BYTES("# other\r\n" LINE_A)), 2, 0, 0, 0, 7);
    header(__LINE__, packed_refs_header(LARGE), 17, 0, 0, 0, 0);
}

static void test_name(void)
{
    SAME(packed_refs_name(BYTES("refs/s/a")), 0);
    SAME(packed_refs_name(BYTES("refs/s/a.lock")), 3);
    SAME(packed_refs_name(BYTES("refs/s.lock/a")), 3);
    SAME(packed_refs_name(BYTES("refs/s.lockb/a")), 0);
    SAME(packed_refs_name(BYTES("")), 3);
    SAME(packed_refs_name(LARGE), 17);
}

static void start(int line, struct packed_refs_start_reply r, uint32_t number, size_t place, uint64_t first, size_t text_len)
{
    same(line, "number", r.number, number);
    same(line, "place", r.place, place);
    same(line, "line", r.line, first);
    same(line, "text_len", r.text_len, text_len);
}

static void test_start(void)
{
    start(__LINE__, packed_refs_start(1, BYTES("")), 0, 0, 1, 0);
    start(__LINE__, packed_refs_start(1, BYTES(LINE_A)), 0, 0, 1, 0);
    start(__LINE__, packed_refs_start(1, BYTES(OLD)), 0, 46, 2, 0);
    start(__LINE__, packed_refs_start(2, BYTES("# other\n")), 2, 0, 0, 7);
    start(__LINE__, packed_refs_start(0, BYTES(OLD)), 1, 0, 0, 0);
    start(__LINE__, packed_refs_start(1, LARGE), 17, 0, 0, 0);
}

static void step(int line, struct packed_refs_step_reply r, struct packed_refs_step_reply want)
{
    same(line, "number", r.number, want.number);
    same(line, "what", r.what, want.what);
    same(line, "start", r.start, want.start);
    same(line, "next", r.next, want.next);
    same(line, "name_at", r.name_at, want.name_at);
    same(line, "name_len", r.name_len, want.name_len);
    same(line, "peeled_at", r.peeled_at, want.peeled_at);
    same(line, "why", r.why, want.why);
    same(line, "line", r.line, want.line);
    same(line, "next_line", r.next_line, want.next_line);
    same(line, "text_len", r.text_len, want.text_len);
}

static struct packed_refs_step_reply no_item(uint32_t number, size_t next)
{
    struct packed_refs_step_reply r = {0, 0, 0, 0, 0, 0, 0, 0, 0, 0, 0};
    r.number = number;
    r.next = next;
    return r;
}

/* The same reply with the lines that another step gives. */
static struct packed_refs_step_reply on_line(struct packed_refs_step_reply r, uint64_t line, uint64_t next_line)
{
    r.line = line;
    r.next_line = next_line;
    return r;
}

static void test_step(void)
{
    const struct packed_refs_step_reply a = {0, 1, 46, 96, 87, 8, 0, 0, 0, 0, 0};
    const struct packed_refs_step_reply c = {0, 1, 96, 188, 137, 8, 147, 0, 0, 0, 0};
    const struct packed_refs_step_reply x = {0, 2, 1, 4, 0, 0, 0, 41, 0, 0, 2};

    step(__LINE__, packed_refs_step(1, BYTES(OLD), 46), a);
    step(__LINE__, packed_refs_step(1, BYTES(OLD), 96), c);
    step(__LINE__, packed_refs_step(1, BYTES(OLD), 188), no_item(0, 188));
    step(__LINE__, packed_refs_step(1, BYTES(OLD), SIZE_MAX), no_item(0, 188));
    step(__LINE__, packed_refs_step(1, BYTES("\nx\r\n"), 1), on_line(x, 2, 0));
    step(__LINE__, packed_refs_step(3, BYTES(OLD), 46), no_item(1, 0));
    step(__LINE__, packed_refs_step(1, LARGE, 46), no_item(17, 0));

    step(__LINE__, packed_refs_step_prefix(1, BYTES(OLD), BYTES("refs/s/"), 46), a);
    step(__LINE__, packed_refs_step_prefix(1, BYTES(OLD), BYTES("refs/s/c"), 46), no_item(0, 188));
    step(__LINE__, packed_refs_step_prefix(1, BYTES("\nx\r\n"), BYTES("refs/s/c"), 1), x);
    step(__LINE__, packed_refs_step_prefix(1, BYTES("\nx\r\n"), BYTES(""), 1), x);
    step(__LINE__, packed_refs_step_prefix(3, BYTES(OLD), BYTES(""), 46), no_item(1, 0));
    step(__LINE__, packed_refs_step_prefix(1, BYTES(OLD), LARGE, 46), no_item(17, 0));

    /* The walk: a record's line, and its ^ line too; an error's as it was given, and 1 more but for a last line without LF. */
    step(__LINE__, packed_refs_walk(1, BYTES(OLD), 46, 2), on_line(a, 0, 3));
    step(__LINE__, packed_refs_walk(1, BYTES(OLD), 96, 3), on_line(c, 0, 5));
    step(__LINE__, packed_refs_walk(1, BYTES("\nx\r\n"), 1, 70), on_line(x, 70, 71));
    SAME(packed_refs_walk(1, BYTES("\nx\r"), 1, 70).line, 70);
    SAME(packed_refs_walk(1, BYTES("\nx\r"), 1, 70).next_line, 70);
    SAME(packed_refs_walk(1, BYTES("\nx\r"), 1, 70).text_len, 2);
    /* The largest number stays, and at an end it is as it came. */
    SAME(packed_refs_walk(1, BYTES(OLD), 46, UINT64_MAX).next_line, UINT64_MAX);
    SAME(packed_refs_walk(1, BYTES(OLD), 96, UINT64_MAX - 1).next_line, UINT64_MAX);
    step(__LINE__, packed_refs_walk(1, BYTES("\nx\r\n"), 1, UINT64_MAX), on_line(x, UINT64_MAX, UINT64_MAX));
    step(__LINE__, packed_refs_walk(1, BYTES(OLD), 188, 5), on_line(no_item(0, 188), 0, 5));
    step(__LINE__, packed_refs_walk(1, BYTES(OLD), SIZE_MAX, UINT64_MAX), on_line(no_item(0, 188), 0, UINT64_MAX));
    step(__LINE__, packed_refs_walk(1, BYTES(OLD), 188, 0), no_item(0, 188));
    step(__LINE__, packed_refs_walk(3, BYTES(OLD), 46, 2), no_item(1, 0));
    step(__LINE__, packed_refs_walk(1, LARGE, 46, 2), no_item(17, 0));
}

/* The plain step counts from the front, also where the place lies within a line: in the header, in a ^ line, at an LF, in a last line without one. */
static void test_step_within_a_line(void)
{
    static const char bytes[] = OLD "x\r\ncut";
    static const struct {
        size_t place;
        uint64_t line;
        size_t text_len;
    } at[] = {
        {0, 1, 45}, {10, 1, 35}, {45, 1, 0}, {95, 2, 0}, {106, 3, 39}, {146, 4, 41}, {150, 4, 37}, {188, 5, 2}, {189, 5, 1}, {190, 5, 0}, {191, 6, 3},
        {193, 6, 1},
    };
    struct packed_refs_step_reply error;
    size_t i, len = sizeof bytes - 1;

    for (i = 0; i < sizeof at / sizeof at[0]; i++) {
        error = no_item(0, at[i].place + at[i].text_len + (at[i].line < 6));
        error.what = 2;
        error.start = at[i].place;
        error.why = 41;
        error.text_len = at[i].text_len;
        step(__LINE__, packed_refs_step(1, BYTES(bytes), at[i].place), on_line(error, at[i].line, 0));
        step(__LINE__, packed_refs_walk(1, BYTES(bytes), at[i].place, 9), on_line(error, 9, at[i].line < 6 ? 10 : 9));
        step(__LINE__, packed_refs_step_prefix(1, BYTES(bytes), BYTES(""), at[i].place), error);
    }
    step(__LINE__, packed_refs_step(1, BYTES(bytes), len), no_item(0, len));
}

/* From the start's line to the end the walk tells what the plain step counts. */
static void test_walk(void)
{
    static const char bytes[] = OLD "x\r\n" LINE_C "^\n\n" LINE_A "cut";
    static const uint64_t lines[] = {5, 8, 9, 11};
    struct packed_refs_start_reply at = packed_refs_start(1, BYTES(bytes));
    struct packed_refs_step_reply walked;
    size_t errors = 0;

    do {
        walked = packed_refs_walk(1, BYTES(bytes), at.place, at.line);
        step(__LINE__, packed_refs_step(1, BYTES(bytes), at.place), on_line(walked, walked.line, 0));
        if (walked.what == 2 && errors < 4)
            SAME(walked.line, lines[errors++]);
        at.place = walked.next;
        at.line = walked.next_line;
    } while (walked.what != 0);
    SAME(errors, 4);
    SAME(at.place, sizeof bytes - 1);
    SAME(at.line, 11);
}

static void check(int line, struct packed_refs_check_reply r, uint32_t number, size_t place, uint64_t bad, size_t count, size_t text_len)
{
    same(line, "number", r.number, number);
    same(line, "place", r.place, place);
    same(line, "line", r.line, bad);
    same(line, "count", r.count, count);
    same(line, "text_len", r.text_len, text_len);
}

static void test_check(void)
{
    check(__LINE__, packed_refs_check(1, BYTES("")), 0, 0, 0, 0, 0);
    check(__LINE__, packed_refs_check(1, BYTES(OLD)), 0, 0, 0, 2, 0);
    check(__LINE__, packed_refs_check(1, BYTES("# other\n")), 2, 0, 0, 0, 7);
    /* the header and the ^ line are lines too, and a CR is text */
    check(__LINE__, packed_refs_check(2, BYTES(OLD)), 41, 46, 2, 0, 49);
    check(__LINE__, packed_refs_check(1, BYTES(OLD "x\r\n")), 41, 188, 5, 0, 2);
    check(__LINE__, packed_refs_check(1, BYTES(LINE_A LONG_ONES " refs/s/b\n")), 42, 50, 2, 0, 73);
    check(__LINE__, packed_refs_check(1, BYTES(LINE_A ONES " refs/s.lock/a\n")), 44, 50, 2, 0, 54);
    check(__LINE__, packed_refs_check(1, BYTES(OLD ONES " refs/s/d")), 43, 188, 5, 0, 49);
    check(__LINE__, packed_refs_check(1, BYTES(LINE_C LINE_A)), 6, 92, 0, 0, 0);
    check(__LINE__, packed_refs_check(0, BYTES(OLD)), 1, 0, 0, 0, 0);
    check(__LINE__, packed_refs_check(1, LARGE), 17, 0, 0, 0, 0);
}

static void test_record_start(void)
{
    SAME(packed_refs_record_start(BYTES(""), 9), 0);
    SAME(packed_refs_record_start(BYTES(OLD), 95), 46);
    SAME(packed_refs_record_start(BYTES(OLD), 150), 96);
    SAME(packed_refs_record_start(BYTES(OLD), SIZE_MAX), 0);
}

static void lookup(int line, struct packed_refs_lookup_reply r, uint32_t number, size_t place, size_t name_at, size_t name_len, size_t peeled_at)
{
    same(line, "number", r.number, number);
    same(line, "place", r.place, place);
    same(line, "name_at", r.name_at, name_at);
    same(line, "name_len", r.name_len, name_len);
    same(line, "peeled_at", r.peeled_at, peeled_at);
}

static void test_lookup(void)
{
    lookup(__LINE__, packed_refs_lookup(1, BYTES(LINE_A LINE_C), BYTES("refs/s/a")), 0, 0, 41, 8, 0);
    lookup(__LINE__, packed_refs_lookup(1, BYTES(LINE_A LINE_C), BYTES("refs/s/c")), 0, 50, 91, 8, 101);
    lookup(__LINE__, packed_refs_lookup(2, BYTES(LONG_ONES " refs/s/a\n"), BYTES("refs/s/a")), 0, 0, 65, 8, 0);
    lookup(__LINE__, packed_refs_lookup(1, BYTES(LINE_A LINE_C), BYTES("refs/s/b")), 5, 0, 0, 0, 0);
    lookup(__LINE__, packed_refs_lookup(1, BYTES(LINE_A LINE_C), BYTES("refs")), 3, 0, 0, 0, 0);
    lookup(__LINE__, packed_refs_lookup(1, BYTES(LINE_A LINE_C), BYTES("refs/s.lock/a")), 3, 0, 0, 0, 0);
    /* a record of the name that is bad, at the very front and behind, and its place */
    lookup(__LINE__, packed_refs_lookup(1, BYTES(NO_ID " refs/s/c\n"), BYTES("refs/s/c")), 41, 0, 0, 0, 0);
    lookup(__LINE__, packed_refs_lookup(1, BYTES(LINE_A NO_ID " refs/s/c\n"), BYTES("refs/s/c")), 41, 50, 0, 0, 0);
    lookup(__LINE__, packed_refs_lookup(1, BYTES(TWOS " refs/s/c\n^zz\n"), BYTES("refs/s/c")), 45, 0, 0, 0, 0);
    lookup(__LINE__, packed_refs_lookup(1, BYTES(LINE_A TWOS " refs/s/c\n^zz\n"), BYTES("refs/s/c")), 45, 50, 0, 0, 0);
    lookup(__LINE__, packed_refs_lookup(2, BYTES(LONG_TWOS " refs/s/c\n^" TWOS "\n"), BYTES("refs/s/c")), 45, 0, 0, 0, 0);
    /* none of the name, and a line that can't be read */
    lookup(__LINE__, packed_refs_lookup(1, BYTES("x\n"), BYTES("refs/s/c")), 4, 0, 0, 0, 0);
    lookup(__LINE__, packed_refs_lookup(1, BYTES(LINE_A "x\n"), BYTES("refs/s/c")), 4, 0, 0, 0, 0);
    lookup(__LINE__, packed_refs_lookup(3, BYTES(LINE_A), BYTES("refs/s/a")), 1, 0, 0, 0, 0);
    lookup(__LINE__, packed_refs_lookup(1, BYTES(LINE_A), LARGE), 17, 0, 0, 0, 0);
}

static void prefix(int line, struct packed_refs_prefix_reply r, uint32_t number, size_t place, size_t text_at, size_t text_len)
{
    same(line, "number", r.number, number);
    same(line, "place", r.place, place);
    same(line, "text_at", r.text_at, text_at);
    same(line, "text_len", r.text_len, text_len);
}

static void test_prefix(void)
{
    prefix(__LINE__, packed_refs_prefix(1, BYTES(LINE_A LINE_C), BYTES("refs/s/c")), 0, 50, 0, 0);
    prefix(__LINE__, packed_refs_prefix(1, BYTES(LINE_A LINE_C), BYTES("refs/s/")), 0, 0, 0, 0);
    prefix(__LINE__, packed_refs_prefix(1, BYTES("# other\n"), BYTES("")), 2, 0, 0, 7);
    prefix(__LINE__, packed_refs_prefix(1, BYTES("a\n#bbbbbb\n"), BYTES("")), 2, 0, 2, 7);
    prefix(__LINE__, packed_refs_prefix(0, BYTES(LINE_A), BYTES("")), 1, 0, 0, 0);
    prefix(__LINE__, packed_refs_prefix(1, LARGE, BYTES("")), 17, 0, 0, 0);
}

static void ask(
    int line, struct packed_refs_ask_reply r, uint32_t number, size_t place, uint64_t bad, size_t name_at, size_t name_len, size_t peeled_at,
    size_t text_len, uint32_t fault)
{
    same(line, "number", r.number, number);
    same(line, "place", r.place, place);
    same(line, "line", r.line, bad);
    same(line, "name_at", r.name_at, name_at);
    same(line, "name_len", r.name_len, name_len);
    same(line, "peeled_at", r.peeled_at, peeled_at);
    same(line, "text_len", r.text_len, text_len);
    same(line, "fault", r.fault, fault);
}

static void test_ask(void)
{
    ask(__LINE__, packed_refs_ask(1, BYTES(OLD), BYTES("refs/s/a")), 0, 46, 0, 87, 8, 0, 0, 0);
    ask(__LINE__, packed_refs_ask(1, BYTES(OLD), BYTES("refs/s/c")), 0, 96, 0, 137, 8, 147, 0, 0);
    ask(__LINE__, packed_refs_ask(1, BYTES(OLD), BYTES("refs/s/b")), 5, 0, 0, 0, 0, 0, 0, 0);
    ask(__LINE__, packed_refs_ask(1, BYTES(OLD), BYTES("refs")), 3, 0, 0, 0, 0, 0, 0, 0);
    ask(__LINE__, packed_refs_ask(1, BYTES(OLD), BYTES("refs/s.lock/a")), 3, 0, 0, 0, 0, 0, 0, 0);
    ask(__LINE__, packed_refs_ask(1, BYTES("# other\n"), BYTES("refs/s/a")), 2, 0, 0, 0, 0, 0, 7, 0);
    ask(__LINE__, packed_refs_ask(1, BYTES(LINE_A "x\n"), BYTES("refs/s/b")), 41, 50, 2, 0, 0, 0, 1, 0);
    ask(__LINE__, packed_refs_ask(1, BYTES(OLD "x\r\n"), BYTES("refs/s/b")), 41, 188, 5, 0, 0, 0, 2, 0);
    ask(__LINE__, packed_refs_ask(1, BYTES(OLD "xyz"), BYTES("refs/s/b")), 41, 188, 5, 0, 0, 0, 3, 0);
    ask(__LINE__, packed_refs_ask(1, BYTES(LINE_C LINE_A), BYTES("refs/s/b")), 6, 92, 0, 0, 0, 0, 0, 0);
    ask(__LINE__, packed_refs_ask(9, BYTES(OLD), BYTES("refs/s/a")), 1, 0, 0, 0, 0, 0, 0, 0);
    ask(__LINE__, packed_refs_ask(1, BYTES(OLD), LARGE), 17, 0, 0, 0, 0, 0, 0, 0);
    /* charted in a file that does not pass: damage behind the record, before it, both; out of order; twice. Its number alone is told. */
    ask(__LINE__, packed_refs_ask(1, BYTES(OLD "x\n"), BYTES("refs/s/c")), 0, 96, 0, 137, 8, 147, 0, 41);
    ask(__LINE__, packed_refs_ask(1, BYTES(ONES " \n" LINE_A), BYTES("refs/s/a")), 0, 42, 0, 83, 8, 0, 0, 44);
    ask(__LINE__, packed_refs_ask(1, BYTES(ONES "\n" LINE_A "x\n"), BYTES("refs/s/a")), 0, 41, 0, 82, 8, 0, 0, 42);
    ask(__LINE__, packed_refs_ask(1, BYTES(LINE_C LINE_A), BYTES("refs/s/c")), 0, 0, 0, 41, 8, 51, 0, 6);
    ask(__LINE__, packed_refs_ask(1, BYTES(LINE_A LINE_A), BYTES("refs/s/a")), 0, 0, 0, 41, 8, 0, 0, 6);
    ask(__LINE__, packed_refs_ask(2, BYTES(LONG_ONES " refs/s/a\n" LONG_TWOS " refs/s/b"), BYTES("refs/s/a")), 0, 0, 0, 65, 8, 0, 0, 43);
}

static void merge(int line, struct packed_refs_merge_reply r, uint32_t number, size_t place, uint64_t bad, size_t length, size_t text_len)
{
    same(line, "number", r.number, number);
    same(line, "place", r.place, place);
    same(line, "line", r.line, bad);
    same(line, "length", r.length, length);
    same(line, "text_len", r.text_len, text_len);
}

#define RAW_FOURS "DDDDDDDDDDDDDDDDDDDD" /* twenty bytes 0x44 */
#define DELETE_C "\0\10refs/s/c"
#define DELETE_A "\0\10refs/s/a"
#define UPDATE_B "\1\10refs/s/b" RAW_FOURS

static void test_merge(void)
{
    static const char new_file[] = HEADER LINE_A FOURS " refs/s/b\n";
    static const char twice[] = DELETE_A DELETE_A;
    uint32_t index[4] = {7, 7, 7, 7};
    uint8_t out[200];
    size_t i;

    /* Nothing is written by a refusal before 11. */
    memset(out, 'z', sizeof out);
    merge(__LINE__, packed_refs_merge(0, BYTES(OLD), BYTES(UPDATE_B), index, 4, out, 200), 1, 0, 0, 0, 0);
    merge(__LINE__, packed_refs_merge(1, LARGE, BYTES(UPDATE_B), index, 4, out, 200), 17, 0, 0, 0, 0);
    merge(__LINE__, packed_refs_merge(1, BYTES(OLD), BYTES(DELETE_C "\3"), index, 4, out, 200), 7, 10, 0, 0, 0);
    merge(__LINE__, packed_refs_merge(1, BYTES(OLD), BYTES(DELETE_C "\0\4refs"), index, 4, out, 200), 8, 10, 0, 0, 0);
    merge(__LINE__, packed_refs_merge(1, BYTES(OLD), BYTES(DELETE_C "\0\15refs/s.lock/a"), index, 4, out, 200), 8, 10, 0, 0, 0);
    merge(__LINE__, packed_refs_merge(1, BYTES(OLD), BYTES(DELETE_C UPDATE_B), index, 1, out, 200), 10, 0, 0, 0, 0);
    for (i = 0; i < 4; i++)
        SAME(index[i], 7);

    /* From 11 on the index is written, and not behind the edits. */
    merge(__LINE__, packed_refs_merge(1, BYTES(OLD), BYTES(twice), index, 4, out, 200), 11, 10, 0, 0, 0);
    SAME(index[0], 0);
    SAME(index[1], 10);
    SAME(index[2], 7);
    merge(__LINE__, packed_refs_merge(1, BYTES("# other\n"), BYTES(UPDATE_B), index, 4, out, 200), 2, 0, 0, 0, 7);
    merge(__LINE__, packed_refs_merge(1, BYTES(LINE_A "x\n"), BYTES(UPDATE_B), index, 4, out, 200), 41, 50, 2, 0, 1);
    merge(__LINE__, packed_refs_merge(1, BYTES(OLD "x\r\n"), BYTES(UPDATE_B), index, 4, out, 200), 41, 188, 5, 0, 2);
    merge(__LINE__, packed_refs_merge(1, BYTES(OLD "xyz"), BYTES(UPDATE_B), index, 4, out, 200), 41, 188, 5, 0, 3);
    merge(__LINE__, packed_refs_merge(1, BYTES(LINE_A TWOS " refs/s/c\n^"), BYTES(UPDATE_B), index, 4, out, 200), 45, 50, 2, 0, 49);
    merge(__LINE__, packed_refs_merge(1, BYTES(LINE_C LINE_A), BYTES(UPDATE_B), index, 4, out, 200), 6, 92, 0, 0, 0);
    merge(__LINE__, packed_refs_merge(1, BYTES(LINE_A), BYTES(DELETE_C), index, 4, out, 200), 13, 0, 0, 0, 0);
    merge(__LINE__, packed_refs_merge(1, BYTES(LINE_A), BYTES(DELETE_A), index, 4, out, 200), 14, 0, 0, 0, 0);
    merge(__LINE__, packed_refs_merge(1, BYTES(OLD), BYTES(DELETE_C UPDATE_B), index, 4, out, 145), 12, 0, 0, 0, 0);
    for (i = 0; i < sizeof out; i++)
        SAME(out[i], 'z');

    merge(__LINE__, packed_refs_merge(1, BYTES(OLD), BYTES(DELETE_C UPDATE_B), index, 4, out, 200), 0, 0, 0, 146, 0);
    SAME(index[0], 10);
    SAME(index[1], 0);
    SAME(index[2], 7);
    SAME(sizeof new_file - 1, 146);
    SAME(memcmp(out, new_file, 146), 0);
    for (i = 146; i < sizeof out; i++)
        SAME(out[i], 'z');
}

/* Each part of a record that can be bad: the first in the order of the numbers is told, wherever one is, with the line's number and its text:
 * all of it but the LF. Errors cover the line. */
static void test_bad_records(void)
{
#define BAD(kind, text, number) {kind, number, BYTES(text)}
    static const struct {
        uint32_t kind, number;
        const uint8_t *bytes;
        size_t len;
    } bad[] = {
        BAD(1, "\n", 41),
        BAD(1, "1111", 41),
        BAD(1, "?" ONES " refs/s/a\n", 41),
        BAD(2, ONES " refs/s/a\n", 41),
        BAD(1, ONES, 42),
        BAD(1, ONES "\n", 42),
        BAD(1, ONES "1 refs/s/a\n", 42),
        BAD(2, LONG_ONES "refs//a\rx\n", 42),
        /* a space and then no line end is 43, also where the name would be bad */
        BAD(1, ONES " ", 43),
        BAD(1, ONES " refs/s/a", 43),
        BAD(1, ONES " refs//a", 43),
        BAD(1, ONES " refs//a\rx\n", 43),
        BAD(2, LONG_ONES " refs/s/a\r", 43),
        /* empty text behind the space is 44 */
        BAD(1, ONES " \n", 44),
        BAD(1, ONES " \r\n", 44),
        BAD(1, ONES "  refs/s/a\n", 44),
        BAD(1, ONES " refs//a\n^zz\n", 44),
        BAD(2, LONG_ONES " refs/s/a.lock\n", 44),
        /* `^` as the last byte is 45 */
        BAD(1, ONES " refs/s/a\n^", 45),
        BAD(1, ONES " refs/s/a\n^" TWOS, 45),
        BAD(1, ONES " refs/s/a\n^" TWOS "\rx\n", 45),
        BAD(1, ONES " refs/s/a\r\n^" TWOS "2\n", 45),
        BAD(2, LONG_ONES " refs/s/a\n^" TWOS "\n", 45),
    };
#undef BAD
    struct packed_refs_step_reply error;
    const uint8_t *lf;
    size_t text;
    uint32_t index[1];
    uint8_t out[1];
    size_t i;

    for (i = 0; i < sizeof bad / sizeof bad[0]; i++) {
        lf = memchr(bad[i].bytes, '\n', bad[i].len);
        text = lf == NULL ? bad[i].len : (size_t)(lf - bad[i].bytes);
        error = no_item(0, text + (lf != NULL));
        error.what = 2;
        error.why = bad[i].number;
        error.text_len = text;
        step(__LINE__, packed_refs_step(bad[i].kind, bad[i].bytes, bad[i].len, 0), on_line(error, 1, 0));
        step(__LINE__, packed_refs_walk(bad[i].kind, bad[i].bytes, bad[i].len, 0, 7), on_line(error, 7, lf == NULL ? 7 : 8));
        step(__LINE__, packed_refs_step_prefix(bad[i].kind, bad[i].bytes, bad[i].len, BYTES("x"), 0), error);
        check(__LINE__, packed_refs_check(bad[i].kind, bad[i].bytes, bad[i].len), bad[i].number, 0, 1, 0, text);
        ask(__LINE__, packed_refs_ask(bad[i].kind, bad[i].bytes, bad[i].len, BYTES("refs/s/b")), bad[i].number, 0, 1, 0, 0, 0, text, 0);
        merge(__LINE__, packed_refs_merge(bad[i].kind, bad[i].bytes, bad[i].len, BYTES(""), index, 1, out, 1), bad[i].number, 0, 1, 0, text);
    }
}

/* 9: a byte behind 4,096 good edits. */
static void test_many_edits(void)
{
    enum { COUNT = 4096, SIZE = 10 };
    static uint8_t edits[COUNT * SIZE + 1];
    static uint32_t index[COUNT];
    uint8_t out[1] = {0};
    char name[9];
    size_t i;

    for (i = 0; i < COUNT; i++) {
        edits[i * SIZE + 1] = 8;
        sprintf(name, "r/%06u", (unsigned)i);
        memcpy(edits + i * SIZE + 2, name, 8);
    }
    merge(__LINE__, packed_refs_merge(1, BYTES(OLD), edits, sizeof edits, index, COUNT, out, 1), 9, (size_t)COUNT * SIZE, 0, 0, 0);
    merge(__LINE__, packed_refs_merge(1, BYTES(OLD), edits, sizeof edits - 1, index, COUNT, out, 1), 13, 0, 0, 0, 0);
    SAME(index[COUNT - 1], (COUNT - 1) * SIZE);
}

static void loose(int line, struct packed_refs_loose_reply r, uint32_t number, uint32_t what, size_t at, size_t len)
{
    same(line, "number", r.number, number);
    same(line, "what", r.what, what);
    same(line, "at", r.at, at);
    same(line, "len", r.len, len);
}

static void test_loose(void)
{
    loose(__LINE__, packed_refs_loose(1, BYTES(ONES "\n")), 0, 1, 0, 40);
    loose(__LINE__, packed_refs_loose(2, BYTES(LONG_ONES)), 0, 1, 0, 64);
    loose(__LINE__, packed_refs_loose(1, BYTES("ref:  refs/s/a\n")), 0, 2, 6, 8);
    loose(__LINE__, packed_refs_loose(1, BYTES(ONES "1\n")), 15, 0, 0, 0);
    loose(__LINE__, packed_refs_loose(1, BYTES("ref: refs\n")), 16, 0, 0, 0);
    loose(__LINE__, packed_refs_loose(1, BYTES("ref: refs/s.lock/a\n")), 16, 0, 0, 0);
    loose(__LINE__, packed_refs_loose(3, BYTES(ONES)), 1, 0, 0, 0);
    loose(__LINE__, packed_refs_loose(1, LARGE), 17, 0, 0, 0);
}

int main(void)
{
    uint8_t *zeros = calloc(1073741825, 1);
    if (zeros == NULL) {
        printf("no memory for the size limit's test\n");
        return 1;
    }
    large = zeros;
    test_header();
    test_name();
    test_start();
    test_step();
    test_step_within_a_line();
    test_walk();
    test_check();
    test_record_start();
    test_lookup();
    test_prefix();
    test_ask();
    test_merge();
    test_bad_records();
    test_many_edits();
    test_loose();
    free(zeros);
    if (failures != 0) {
        printf("%d answers differ\n", failures);
        return 1;
    }
    printf("every function answers C as it should\n");
    return 0;
}
