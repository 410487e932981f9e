/* Answers questions by the library, one a line, in the form of compare/README.md: an operation's letter, the id kind, and the lent bytes in hex.
 *
 * Each lent input is a block of its own of exactly its size. What a merge may not write to is filled before and looked at afterwards.
 * With an argument it asks each function about unknown kinds and about inputs at and over the limit of 1,073,741,824 bytes instead. */
#include <inttypes.h>
#include <stdio.h>
#include <stdlib.h>
#include <string.h>
#include <sys/mman.h>

#include "packed_refs.h"

struct bytes {
    uint8_t *at;
    size_t len;
};

static char *line;
static size_t line_room;
static char *cursor;

static void die(const char *why) {
    fprintf(stderr, "ours: %s in: %.200s\n", why, line ? line : "");
    exit(1);
}

static void *room(size_t n) {
    void *p = malloc(n ? n : 1);
    if (!p)
        die("no memory");
    return p;
}

static char *field(void) {
    while (*cursor == ' ')
        cursor++;
    char *start = cursor;
    while (*cursor && *cursor != ' ' && *cursor != '\n')
        cursor++;
    if (start == cursor)
        die("a field is missing");
    if (*cursor)
        *cursor++ = 0;
    return start;
}

static uint64_t number(void) {
    char *end;
    char *text = field();
    uint64_t n = strtoull(text, &end, 10);
    if (*end)
        die("no number");
    return n;
}

static int digit(char c) {
    if (c >= '0' && c <= '9')
        return c - '0';
    if (c >= 'a' && c <= 'f')
        return c - 'a' + 10;
    die("no hex");
    return 0;
}

static struct bytes given(void) {
    char *text = field();
    if (strcmp(text, "-") == 0)
        text[0] = 0;
    struct bytes b = {0, strlen(text) / 2};
    b.at = room(b.len);
    for (size_t i = 0; i < b.len; i++)
        b.at[i] = (uint8_t)(digit(text[2 * i]) * 16 + digit(text[2 * i + 1]));
    return b;
}

static int bad(uint32_t number) {
    return number >= 41 && number <= 45;
}

/* Whether a line or a text is told beside a number that has none. */
static int told_more(uint32_t number, uint64_t line_number, size_t text_len) {
    return !bad(number) && (line_number || (number != 2 && text_len));
}

/* Ends an answer's line. A field that should be 0 beside the answer's number and isn't must not stay hidden. */
static void end_of_answer(int gave_more) {
    printf(gave_more ? " gave more\n" : "\n");
}

static int of_record(struct packed_refs_step_reply r) {
    return r.name_at || r.name_len || r.peeled_at;
}

static int of_error(struct packed_refs_step_reply r) {
    return r.why || r.line || r.text_len;
}

/* Whether two steps told the same item but for its line numbers. */
static int same_item(struct packed_refs_step_reply a, struct packed_refs_step_reply b) {
    return a.number == b.number && a.what == b.what && a.start == b.start && a.next == b.next && a.name_at == b.name_at && a.name_len == b.name_len &&
           a.peeled_at == b.peeled_at && a.why == b.why && a.text_len == b.text_len;
}

/* A record, an error, or an end. */
static void item(struct packed_refs_step_reply r) {
    if (r.what == 0)
        printf(" . %zu", r.next);
    else if (r.what == 1)
        printf(" r %zu %zu %zu %zu %zu", r.start, r.name_at, r.name_len, r.peeled_at, r.next);
    else
        printf(" e %zu %" PRIu32 " %" PRIu64 " %zu %zu", r.start, r.why, r.line, r.text_len, r.next);
    if ((r.what != 1 && of_record(r)) || (r.what != 2 && of_error(r)) || (r.what == 0 && r.start))
        printf(" gave more");
}

/* Whether to go on from an item: neither refused nor the end, and the next place is a later one. */
static int goes_on(struct packed_refs_step_reply r, size_t place) {
    if (r.number != 0) {
        printf(" refused %u%s", r.number, r.what || r.start || r.next || r.next_line || of_record(r) || of_error(r) ? " gave more" : "");
        return 0;
    }
    if (r.what != 0 && r.next <= place) {
        printf(" stuck");
        return 0;
    }
    return r.what != 0;
}

/* The items from a start on, by walking. The plain step tells the same at each place, its line counted in the lent bytes; and so does the step with an empty
 * prefix, but for the line. With `lines` the line of each item's start stands before it. */
static void walked(uint32_t kind, struct bytes b, size_t place, uint64_t line_number, int lines) {
    for (;;) {
        struct packed_refs_step_reply r = packed_refs_walk(kind, b.at, b.len, place, line_number);
        struct packed_refs_step_reply plain = packed_refs_step(kind, b.at, b.len, place);
        struct packed_refs_step_reply bare = packed_refs_step_prefix(kind, b.at, b.len, b.at, 0, place);
        if (lines)
            printf(" %" PRIu64, line_number);
        if (!same_item(r, plain) || r.line != plain.line || plain.next_line)
            printf(" the plain step differs: %" PRIu64 " %zu", plain.line, plain.text_len);
        if (!same_item(r, bare) || bare.line || bare.next_line)
            printf(" the step with an empty prefix differs: %" PRIu64 " %zu", bare.line, bare.text_len);
        if (!goes_on(r, place)) {
            if (lines)
                printf(" .");
            else
                item(r), printf(" %" PRIu64, r.next_line);
            end_of_answer(0);
            return;
        }
        item(r);
        place = r.next;
        line_number = r.next_line;
    }
}

/* A listing from its start on. At each item's place the plain step tells the same but for the line. */
static void listed(uint32_t kind, struct bytes b, struct bytes prefix, size_t place) {
    for (;;) {
        struct packed_refs_step_reply r = packed_refs_step_prefix(kind, b.at, b.len, prefix.at, prefix.len, place);
        if (r.what != 0 && !same_item(r, packed_refs_step(kind, b.at, b.len, place)))
            printf(" the plain step differs");
        int more = goes_on(r, place);
        item(r);
        if (r.next_line)
            printf(" gave more");
        if (!more) {
            end_of_answer(0);
            return;
        }
        place = r.next;
    }
}

static void merge(uint32_t kind) {
    struct bytes old = given(), edits = given();
    size_t index_len = number(), out_len = number();
    uint32_t *index = room(index_len * sizeof *index);
    uint8_t *out = room(out_len);
    struct bytes old_kept = {room(old.len), old.len}, edits_kept = {room(edits.len), edits.len};
    memcpy(old_kept.at, old.at, old.len);
    memcpy(edits_kept.at, edits.at, edits.len);
    for (size_t i = 0; i < index_len; i++)
        index[i] = UINT32_MAX;
    memset(out, 0xa5, out_len);
    struct packed_refs_merge_reply r = packed_refs_merge(kind, old.at, old.len, edits.at, edits.len, index, index_len, out, out_len);
    int beside_place = bad(r.number) || (r.number >= 6 && r.number <= 9) || r.number == 11;
    if (r.number == 0) {
        printf("0 %zu ", r.length);
        if (r.length > out_len)
            die("longer than the output");
        for (size_t i = 0; i < r.length; i++)
            printf("%02x", out[i]);
    } else if (r.number == 2) {
        printf("2 %zu", r.text_len);
    } else if (bad(r.number)) {
        printf("%u %zu %" PRIu64 " %zu", r.number, r.place, r.line, r.text_len);
    } else if (beside_place) {
        printf("%u %zu", r.number, r.place);
    } else {
        printf("%u", r.number);
    }
    size_t known = 0;
    for (size_t i = 0; i < index_len; i++)
        if (index[i] != UINT32_MAX)
            known = i + 1;
    printf(" x");
    for (size_t i = 0; i < known; i++)
        printf(" %" PRIu32, index[i]);
    for (size_t i = r.length; i < out_len; i++)
        if (out[i] != 0xa5) {
            printf(" wrote output %zu", i);
            break;
        }
    if (memcmp(old.at, old_kept.at, old.len) || memcmp(edits.at, edits_kept.at, edits.len))
        printf(" wrote input");
    end_of_answer((r.number != 0 && r.length) || told_more(r.number, r.line, r.text_len) || (!beside_place && r.place));
    free(old.at), free(edits.at), free(index), free(out), free(old_kept.at), free(edits_kept.at);
}

static void answer(char op, uint32_t kind) {
    struct bytes b, name;
    switch (op) {
    case 'h': {
        b = given();
        struct packed_refs_header_reply r = packed_refs_header(b.at, b.len);
        if (r.number == 0)
            printf("0 %u %u %zu\n", r.peeled, r.sorted, r.place);
        else if (r.number == 2)
            printf("2 %zu\n", r.text_len);
        else
            printf("%u\n", r.number);
        free(b.at);
        return;
    }
    case 'n':
        b = given();
        printf("%u\n", packed_refs_name(b.at, b.len));
        free(b.at);
        return;
    case 'i':
    case 'v': {
        b = given();
        struct packed_refs_start_reply r = packed_refs_start(kind, b.at, b.len);
        if (r.number == 0) {
            printf("0");
            if (op == 'i')
                printf(" %zu %" PRIu64, r.place, r.line);
            walked(kind, b, r.place, r.line, op == 'v');
        } else {
            printf("%u", r.number);
            if (r.number == 2)
                printf(" %zu", r.text_len);
            end_of_answer(r.place || r.line || (r.number != 2 && r.text_len));
        }
        free(b.at);
        return;
    }
    case 't': {
        b = given();
        struct packed_refs_step_reply r = packed_refs_step(kind, b.at, b.len, number());
        printf("%u", r.number);
        item(r);
        end_of_answer(r.next_line != 0);
        free(b.at);
        return;
    }
    case 'w': {
        b = given();
        size_t place = number();
        struct packed_refs_step_reply r = packed_refs_walk(kind, b.at, b.len, place, number());
        printf("%u", r.number);
        item(r);
        printf(" %" PRIu64, r.next_line);
        end_of_answer(!same_item(r, packed_refs_step(kind, b.at, b.len, place)));
        free(b.at);
        return;
    }
    case 's':
        b = given();
        printf("%zu\n", packed_refs_record_start(b.at, b.len, number()));
        free(b.at);
        return;
    case 'c': {
        b = given();
        struct packed_refs_check_reply r = packed_refs_check(kind, b.at, b.len);
        int beside_place = bad(r.number) || r.number == 6;
        if (r.number == 0)
            printf("0 %zu", r.count);
        else if (r.number == 2)
            printf("2 %zu", r.text_len);
        else if (bad(r.number))
            printf("%u %zu %" PRIu64 " %zu", r.number, r.place, r.line, r.text_len);
        else if (beside_place)
            printf("%u %zu", r.number, r.place);
        else
            printf("%u", r.number);
        end_of_answer((r.number != 0 && r.count) || told_more(r.number, r.line, r.text_len) || (!beside_place && r.place));
        free(b.at);
        return;
    }
    case 'f': {
        b = given(), name = given();
        struct packed_refs_lookup_reply r = packed_refs_lookup(kind, b.at, b.len, name.at, name.len);
        int of_hit = r.name_at || r.name_len || r.peeled_at;
        if (r.number == 0)
            printf("0 %zu %zu %zu %zu", r.place, r.name_at, r.name_len, r.peeled_at);
        else if (bad(r.number))
            printf("%u %zu", r.number, r.place);
        else
            printf("%u", r.number);
        end_of_answer(r.number != 0 && (of_hit || (!bad(r.number) && r.place)));
        free(b.at), free(name.at);
        return;
    }
    case 'a': {
        b = given(), name = given();
        struct packed_refs_ask_reply r = packed_refs_ask(kind, b.at, b.len, name.at, name.len);
        int beside_place = bad(r.number) || r.number == 6, of_hit = r.name_at || r.name_len || r.peeled_at || r.fault;
        if (r.number == 0)
            printf("0 %zu %zu %zu %zu %" PRIu32, r.place, r.name_at, r.name_len, r.peeled_at, r.fault);
        else if (r.number == 2)
            printf("2 %zu", r.text_len);
        else if (bad(r.number))
            printf("%u %zu %" PRIu64 " %zu", r.number, r.place, r.line, r.text_len);
        else if (beside_place)
            printf("%u %zu", r.number, r.place);
        else
            printf("%u", r.number);
        end_of_answer((r.number != 0 && (of_hit || (!beside_place && r.place))) || told_more(r.number, r.line, r.text_len));
        free(b.at), free(name.at);
        return;
    }
    case 'p': {
        b = given(), name = given();
        struct packed_refs_prefix_reply r = packed_refs_prefix(kind, b.at, b.len, name.at, name.len);
        if (r.number == 0) {
            printf("0 %zu", r.place);
            listed(kind, b, name, r.place);
        } else {
            printf("%u", r.number);
            if (r.number == 2)
                printf(" %zu %zu", r.text_at, r.text_len);
            end_of_answer(r.place || (r.number != 2 && (r.text_at || r.text_len)));
        }
        free(b.at), free(name.at);
        return;
    }
    case 'm':
        merge(kind);
        return;
    case 'l': {
        b = given();
        struct packed_refs_loose_reply r = packed_refs_loose(kind, b.at, b.len);
        if (r.number == 0)
            printf("0 %u %zu %zu\n", r.what, r.at, r.len);
        else
            printf("%u\n", r.number);
        free(b.at);
        return;
    }
    default:
        die("no such operation");
    }
}

/* ---- Numbers 1 and 17, for which there is nothing to compare with. */

static unsigned wrong, asked;

static void want(const char *what, uint32_t number, uint32_t said) {
    asked++;
    if (said != number) {
        printf("%s: %u, not %u\n", what, said, number);
        wrong++;
    }
}

static void limits(void) {
    const size_t most = 1073741824;
    /* No page of it is touched where the answer is 17. */
    uint8_t *big = mmap(0, most + 1, PROT_READ | PROT_WRITE, MAP_PRIVATE | MAP_ANONYMOUS | MAP_NORESERVE, -1, 0);
    if (big == MAP_FAILED)
        die("no memory");
    const uint32_t kinds[] = {0, 1, 2, 3, UINT32_MAX};
    uint8_t small[4] = "a/b";
    uint32_t index[1] = {7};
    for (size_t i = 0; i < sizeof kinds / sizeof *kinds; i++) {
        uint32_t k = kinds[i], n = k == 1 || k == 2 ? 17 : 1, none = n == 1 ? 1 : 0;
        want("start", n, packed_refs_start(k, big, most + 1).number);
        want("step", n, packed_refs_step(k, big, most + 1, 0).number);
        want("walk", n, packed_refs_walk(k, big, most + 1, 0, 1).number);
        want("step with a prefix", n, packed_refs_step_prefix(k, big, most + 1, small, 3, 0).number);
        want("step, large prefix", n, packed_refs_step_prefix(k, small, 3, big, most + 1, 0).number);
        want("check", n, packed_refs_check(k, big, most + 1).number);
        want("lookup", n, packed_refs_lookup(k, big, most + 1, small, 3).number);
        want("lookup, large name", n, packed_refs_lookup(k, small, 3, big, most + 1).number);
        want("prefix", n, packed_refs_prefix(k, big, most + 1, small, 3).number);
        want("prefix, large prefix", n, packed_refs_prefix(k, small, 3, big, most + 1).number);
        want("ask", n, packed_refs_ask(k, big, most + 1, small, 3).number);
        want("ask, large name", n, packed_refs_ask(k, small, 3, big, most + 1).number);
        want("merge", n, packed_refs_merge(k, big, most + 1, small, 0, index, 1, small, 0).number);
        want("merge, large list", n, packed_refs_merge(k, small, 0, big, most + 1, index, 1, small, 0).number);
        want("merge, large output", none ? 1 : 13, packed_refs_merge(k, small, 0, small, 0, index, 1, big, most + 1).number);
        want("loose", n, packed_refs_loose(k, big, most + 1).number);
        want("start, small", none, packed_refs_start(k, small, 0).number);
        want("step, small", none, packed_refs_step(k, small, 0, SIZE_MAX).number);
        want("walk, small", none, packed_refs_walk(k, small, 0, SIZE_MAX, UINT64_MAX).number);
        want("step with a prefix, small", none, packed_refs_step_prefix(k, small, 0, small, 3, SIZE_MAX).number);
        want("check, small", none, packed_refs_check(k, small, 0).number);
        want("lookup, small", none ? 1 : 5, packed_refs_lookup(k, small, 0, small, 3).number);
        want("prefix, small", none, packed_refs_prefix(k, small, 0, small, 3).number);
        want("ask, small", none ? 1 : 5, packed_refs_ask(k, small, 0, small, 3).number);
        want("merge, small", none ? 1 : 13, packed_refs_merge(k, small, 0, small, 0, index, 1, small, 0).number);
        want("loose, small", none ? 1 : 15, packed_refs_loose(k, small, 0).number);
    }
    want("header", 17, packed_refs_header(big, most + 1).number);
    want("name", 17, packed_refs_name(big, most + 1));
    want("index untouched", 7, index[0]);
    /* Exactly the limit is no refusal: a first byte that ends the reading at once. */
    want("header, at the limit", 0, packed_refs_header(big, most).number);
    want("name, at the limit", 3, packed_refs_name(big, most));
    want("start, at the limit", 0, packed_refs_start(1, big, most).number);
    want("loose, at the limit", 15, packed_refs_loose(1, big, most).number);
    /* A refusal has nothing beside its number, whatever line was given. */
    struct packed_refs_step_reply r;
    for (uint32_t k = 0; k < 2; k++) {
        r = packed_refs_walk(k, big, most + 1, 0, 7);
        want("walk, nothing beside", 0, r.what || r.start || r.next || r.next_line || of_record(r) || of_error(r));
        struct packed_refs_start_reply s = packed_refs_start(k, big, most + 1);
        want("start, nothing beside", 0, s.place || s.line || s.text_len);
        struct packed_refs_check_reply c = packed_refs_check(k, big, most + 1);
        want("check, nothing beside", 0, c.place || c.line || c.count || c.text_len);
        struct packed_refs_ask_reply a = packed_refs_ask(k, big, most + 1, small, 3);
        want("ask, nothing beside", 0, a.place || a.line || a.name_at || a.name_len || a.peeled_at || a.text_len || a.fault);
        struct packed_refs_merge_reply m = packed_refs_merge(k, big, most + 1, small, 0, index, 1, small, 0);
        want("merge, nothing beside", 0, m.place || m.line || m.length || m.text_len);
    }
    /* The largest line number stays. */
    uint8_t line_feed = '\n';
    r = packed_refs_walk(1, &line_feed, 1, 0, UINT64_MAX);
    want("the largest line number", 1, r.what == 2 && r.why == 41 && r.line == UINT64_MAX && r.next_line == UINT64_MAX);
    r = packed_refs_walk(1, &line_feed, 1, 1, UINT64_MAX);
    want("the largest line number, at the end", 1, r.what == 0 && r.line == 0 && r.next_line == UINT64_MAX);
    munmap(big, most + 1);
    printf("limits: %u asked, %u wrong\n", asked, wrong);
}

int main(int count, char **words) {
    (void)words;
    if (count > 1) {
        limits();
        return wrong != 0;
    }
    static char buffer[1 << 16];
    setvbuf(stdout, buffer, _IOFBF, sizeof buffer);
    while (getline(&line, &line_room, stdin) > 0) {
        cursor = line;
        char op = field()[0];
        answer(op, (uint32_t)number());
    }
    free(line);
    if (fflush(stdout))
        die("not written");
    return 0;
}
