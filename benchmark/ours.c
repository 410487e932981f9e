/* ours FILE PREFIX RUNS: how fast the library is on a file as the oracle's bench/gen.py makes them: `KEY SECONDS` lines, the least of RUNS runs in processor
 * time of this thread, as the machine may be shared. benchmark/gix.rs does the same work with the Rust, in the same order and with the same random numbers.
 * ours hostile SHAPE BYTES RUNS: the same on a file that is made to be slow.
 * ours walk FILE RUNS: the walk through a file of good lines or of bad ones, with the sums of what its errors tell, and a plain step to its last line. */
#define _GNU_SOURCE
#include <stdio.h>
#include <stdlib.h>
#include <string.h>
#include <time.h>

#include "packed_refs.h"

#define KIND 1
#define DIGITS 40

static void die(const char *why) {
    fprintf(stderr, "ours: %s\n", why);
    exit(1);
}

static void *room(size_t n) {
    void *p = malloc(n ? n : 1);
    if (!p)
        die("no memory");
    return p;
}

static double now(void) {
    struct timespec t;
    clock_gettime(CLOCK_THREAD_CPUTIME_ID, &t);
    return (double)t.tv_sec + (double)t.tv_nsec / 1e9;
}

/* xorshift, the same in every run. */
static uint64_t state;
static size_t below(size_t n) {
    state ^= state << 13;
    state ^= state >> 7;
    state ^= state << 17;
    return (size_t)(state % n);
}

struct bytes {
    const uint8_t *at;
    size_t len;
};

static struct bytes file, body, prefix;
static struct bytes *names;
static size_t count;
static volatile size_t kept;

static void scan(void) {
    size_t lines = 0;
    const uint8_t *at = file.at, *end = file.at + file.len;
    while ((at = memchr(at, '\n', (size_t)(end - at))) != NULL) {
        at++;
        lines++;
    }
    kept = lines;
}

static void iterate(void) {
    struct packed_refs_start_reply s = packed_refs_start(KIND, file.at, file.len);
    size_t place = s.place, sum = 0;
    uint64_t line = s.line;
    for (;;) {
        struct packed_refs_step_reply r = packed_refs_walk(KIND, file.at, file.len, place, line);
        if (r.what == 0)
            break;
        sum += r.name_len + (r.peeled_at ? 2 * DIGITS : DIGITS);
        place = r.next;
        line = r.next_line;
    }
    kept = sum;
}

/* What a walk met: records, errors, and the sums of the errors' lines and of their texts' lengths. */
static struct {
    size_t records, errors, texts;
    uint64_t lines;
} met;

static void walk(void) {
    struct packed_refs_start_reply s = packed_refs_start(KIND, file.at, file.len);
    size_t place = s.place;
    uint64_t line = s.line;
    memset(&met, 0, sizeof met);
    for (;;) {
        struct packed_refs_step_reply r = packed_refs_walk(KIND, file.at, file.len, place, line);
        if (r.what == 0)
            break;
        if (r.what == 1) {
            met.records++;
        } else {
            met.errors++;
            met.lines += r.line;
            met.texts += r.text_len;
        }
        place = r.next;
        line = r.next_line;
    }
}

/* Where the last line starts, and the line that a plain step tells there. */
static size_t last_line;
static void step_last(void) {
    kept = (size_t)packed_refs_step(KIND, file.at, file.len, last_line).line;
}

static void check(void) {
    kept = packed_refs_check(KIND, file.at, file.len).count;
}

/* The first record's name: the pass goes on to the end of the file for the fault. */
static void ask_charted(void) {
    kept = packed_refs_ask(KIND, file.at, file.len, names[0].at, names[0].len).number;
}

static void ask_absent(void) {
    kept = packed_refs_ask(KIND, file.at, file.len, (const uint8_t *)"zzz/zzz", 7).number;
}

/* Names to look up: those of the file, and the same with an x behind them. */
static struct bytes *wanted;
static size_t wanted_count;
static uint32_t wanted_number;

static void look_up(void) {
    for (size_t i = 0; i < wanted_count; i++)
        if (packed_refs_lookup(KIND, body.at, body.len, wanted[i].at, wanted[i].len).number != wanted_number)
            die("a lookup's number");
}

static size_t listed;
static void list(void) {
    struct packed_refs_prefix_reply s = packed_refs_prefix(KIND, body.at, body.len, prefix.at, prefix.len);
    size_t place = s.place, n = 0;
    for (;;) {
        struct packed_refs_step_reply r = packed_refs_step_prefix(KIND, body.at, body.len, prefix.at, prefix.len, place);
        if (r.what == 0)
            break;
        n++;
        place = r.next;
    }
    listed = n;
}

static uint8_t *edits, *out;
static uint32_t *entries;
static size_t edits_len, edit_count, out_len, new_len;

static void merge(void) {
    struct packed_refs_merge_reply r = packed_refs_merge(KIND, file.at, file.len, edits, edits_len, entries, edit_count, out, out_len);
    if (r.number != 0)
        die("a merge's number");
    new_len = r.length;
}

static double best(size_t runs, void (*f)(void)) {
    double least = 1e300;
    for (size_t i = 0; i < runs; i++) {
        double t = now();
        f();
        t = now() - t;
        if (t < least)
            least = t;
    }
    return least;
}

static void say(const char *key, double seconds) {
    printf("%s %.9f\n", key, seconds);
}

static struct bytes with_x(struct bytes name) {
    uint8_t *p = room(name.len + 1);
    memcpy(p, name.at, name.len);
    p[name.len] = 'x';
    return (struct bytes){p, name.len + 1};
}

/* Half updates of present names, a quarter new names, a quarter deletes; in shuffled order. */
static void make_edits(size_t n) {
    struct bytes *made = room(n * sizeof *made);
    size_t step = count / n;
    for (size_t i = 0; i < n; i++) {
        struct bytes name = names[i * step];
        if (i % 4 == 2)
            name = with_x(name);
        uint8_t *e = room(name.len + 23);
        size_t at = 0;
        e[at++] = i % 4 == 3 ? 0 : 1;
        if (name.len > 127)
            die("a long name");
        e[at++] = (uint8_t)name.len;
        memcpy(e + at, name.at, name.len);
        at += name.len;
        if (i % 4 != 3) {
            memset(e + at, (int)(i & 255), 20);
            at += 20;
        }
        made[i] = (struct bytes){e, at};
    }
    state = 88172645463325252u;
    for (size_t i = n - 1; i >= 1; i--) {
        size_t j = below(i + 1);
        struct bytes t = made[i];
        made[i] = made[j];
        made[j] = t;
    }
    edits_len = 0;
    for (size_t i = 0; i < n; i++)
        edits_len += made[i].len;
    edits = room(edits_len);
    size_t at = 0;
    for (size_t i = 0; i < n; i++) {
        memcpy(edits + at, made[i].at, made[i].len);
        at += made[i].len;
    }
    edit_count = n;
    entries = room(n * sizeof *entries);
    out_len = file.len + n * 200;
    out = room(out_len);
    memset(out, 1, out_len);
}

static uint64_t sum_of(const uint8_t *b, size_t n) {
    uint64_t h = 14695981039346656037u;
    for (size_t i = 0; i < n; i++)
        h = (h ^ b[i]) * 1099511628211u;
    return h;
}

static struct bytes read_file(const char *path) {
    FILE *f = fopen(path, "rb");
    if (!f || fseek(f, 0, SEEK_END) != 0)
        die("a file that can't be read");
    size_t n = (size_t)ftell(f);
    rewind(f);
    uint8_t *p = room(n);
    if (fread(p, 1, n, f) != n)
        die("a file that can't be read");
    fclose(f);
    return (struct bytes){p, n};
}

static struct bytes hostile(const char *shape, size_t n) {
    uint8_t *p = room(n);
    if (strcmp(shape, "no-line-feed") == 0) {
        memset(p, 'a', n);
    } else if (strcmp(shape, "carriage-returns") == 0) {
        memset(p, '\r', n);
    } else if (strcmp(shape, "carets") == 0) {
        for (size_t i = 0; i < n; i++)
            p[i] = i % 2 ? '\n' : '^';
    } else if (strcmp(shape, "line-feeds") == 0) {
        memset(p, '\n', n);
    } else if (strcmp(shape, "peeled-lines") == 0) {
        for (size_t i = 0; i < n; i++)
            p[i] = i % 42 == 0 ? '^' : i % 42 == 41 ? '\n' : '1';
    } else if (strcmp(shape, "one-record") == 0) {
        memset(p, 'a', n);
        p[DIGITS] = ' ';
        p[DIGITS + 2] = '/';
        p[n - 1] = '\n';
    } else if (strcmp(shape, "bad-peeled") == 0) {
        /* Each record is good but for its peeled line, which is read last. */
        static const char two[] = "1111111111111111111111111111111111111111 a/a\n^111111111111111111111111111111111111111x\n";
        for (size_t i = 0; i < n; i++)
            p[i] = (uint8_t)two[i % (sizeof two - 1)];
    } else {
        die("no such shape");
    }
    return (struct bytes){p, n};
}

static void run_hostile(const char *shape, size_t n, size_t runs) {
    file = body = hostile(shape, n);
    say("iterate", best(runs, iterate));
    say("check", best(runs, check));
    say("ask", best(runs, ask_absent));
    static struct bytes one;
    one = (struct bytes){(const uint8_t *)"zzz/zzz", 7};
    wanted = &one;
    wanted_count = 1;
    wanted_number = packed_refs_lookup(KIND, body.at, body.len, one.at, one.len).number;
    say("lookup", best(runs, look_up));
    prefix = (struct bytes){(const uint8_t *)"a", 1};
    say("prefix", best(runs, list));
}

static void run_walk(const char *path, size_t runs) {
    file = read_file(path);
    if (file.len < 2)
        die("a file without lines");
    say("walk", best(runs, walk));
    printf("records %zu\nerrors %zu\nsum-lines %llu\nsum-texts %zu\n", met.records, met.errors, (unsigned long long)met.lines, met.texts);
    for (last_line = file.len - 1; last_line > 0 && file.at[last_line - 1] != '\n';)
        last_line--;
    say("step-last", best(runs, step_last));
    printf("line-last %zu\n", kept);
}

int main(int argc, char **argv) {
    if (argc == 4 && strcmp(argv[1], "walk") == 0) {
        run_walk(argv[2], (size_t)atoll(argv[3]));
        return 0;
    }
    if (argc == 5 && strcmp(argv[1], "hostile") == 0) {
        run_hostile(argv[2], (size_t)atoll(argv[3]), (size_t)atoll(argv[4]));
        return 0;
    }
    if (argc != 4)
        die("usage: ours FILE PREFIX RUNS");
    file = read_file(argv[1]);
    prefix = (struct bytes){(const uint8_t *)argv[2], strlen(argv[2])};
    size_t runs = (size_t)atoll(argv[3]);
    struct packed_refs_check_reply c = packed_refs_check(KIND, file.at, file.len);
    if (c.number != 0)
        die("a file that fails the check");
    count = c.count;
    size_t place = packed_refs_header(file.at, file.len).place;
    body = (struct bytes){file.at + place, file.len - place};
    names = room(count * sizeof *names);
    for (size_t i = 0; i < count; i++) {
        struct packed_refs_step_reply r = packed_refs_step(KIND, file.at, file.len, place);
        names[i] = (struct bytes){file.at + r.name_at, r.name_len};
        place = r.next;
    }
    printf("records %zu\n", count);
    say("scan", best(runs, scan));
    say("iterate", best(runs, iterate));
    printf("sum-iterate %zu\n", kept);
    say("check", best(runs, check));
    say("ask-charted", best(runs, ask_charted));
    say("ask-absent", best(runs, ask_absent));

    wanted_count = count * 10 < 100000 ? count * 10 : 100000;
    struct bytes *present = room(wanted_count * sizeof *present), *absent = room(wanted_count * sizeof *absent);
    state = 88172645463325252u;
    for (size_t i = 0; i < wanted_count; i++) {
        /* A copy, so that the name isn't the file's own bytes. */
        struct bytes x = with_x(names[below(count)]);
        absent[i] = x;
        x = with_x(x);
        present[i] = (struct bytes){x.at, x.len - 2};
    }
    wanted = present;
    wanted_number = 0;
    say("lookup-present", best(runs, look_up) / (double)wanted_count);
    wanted = absent;
    wanted_number = 5;
    say("lookup-absent", best(runs, look_up) / (double)wanted_count);
    list();
    printf("listed %zu\n", listed);
    double t = 1e300;
    for (size_t i = 0; i < runs; i++) {
        /* One listing is too short for the clock. */
        double s = now();
        for (int j = 0; j < 100; j++)
            list();
        s = (now() - s) / 100;
        if (s < t)
            t = s;
    }
    say("prefix", t);
    const size_t sizes[] = {100, 4000};
    for (int i = 0; i < 2; i++) {
        if (sizes[i] > count)
            continue;
        make_edits(sizes[i]);
        char key[32];
        snprintf(key, sizeof key, "merge-%zu", sizes[i]);
        say(key, best(runs, merge));
        printf("sum-merge-%zu %llu\n", sizes[i], (unsigned long long)sum_of(out, new_len));
        free(out);
    }
    return 0;
}
