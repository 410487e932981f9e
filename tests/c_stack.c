/* How much stack each call of include/packed_refs.h takes: it is made by a thread whose stack was painted before. Run by c_boundary.sh. */
#define _POSIX_C_SOURCE 200809L
#include "packed_refs.h"

#include <pthread.h>
#include <stdio.h>
#include <stdlib.h>
#include <string.h>

#define STACK ((size_t)512 * 1024)
#define PAINT 0xA5

#define BYTES(text) (const uint8_t *)(text), sizeof(text) - 1
#define ONES "1111111111111111111111111111111111111111"
#define BODY ONES " refs/s/a\n" ONES " refs/s/b\n^" ONES "\n"
#define FILE_BYTES "# pack-refs with: sorted \n" BODY

static uint32_t idx[4096];
static uint8_t *edits, *out;
static size_t edits_len, out_len;

static void nothing(void) {}
static void header(void) { packed_refs_header(BYTES(FILE_BYTES)); }
static void name(void) { packed_refs_name(BYTES("refs/s/a")); }
static void start(void) { packed_refs_start(1, BYTES(FILE_BYTES)); }
static void step(void) { packed_refs_step(1, BYTES(FILE_BYTES), 26); }
static void walk(void) { packed_refs_walk(1, BYTES(FILE_BYTES), 26, 2); }
static void step_error(void) { packed_refs_step(1, BYTES(FILE_BYTES), 27); }
static void step_prefix(void) { packed_refs_step_prefix(1, BYTES(FILE_BYTES), BYTES("refs"), 26); }
static void check(void) { packed_refs_check(1, BYTES(FILE_BYTES)); }
static void record_start(void) { packed_refs_record_start(BYTES(FILE_BYTES), 99); }
static void lookup(void) { packed_refs_lookup(1, BYTES(BODY), BYTES("refs/s/b")); }
static void prefix(void) { packed_refs_prefix(1, BYTES(BODY), BYTES("refs/s/b")); }
static void ask(void) { packed_refs_ask(1, BYTES(FILE_BYTES), BYTES("refs/s/b")); }
static void loose(void) { packed_refs_loose(1, BYTES(ONES)); }
static void merge(void)
{
    if (packed_refs_merge(1, BYTES(FILE_BYTES), edits, edits_len, idx, 4096, out, out_len).number != 0)
        abort();
}

static void *in_thread(void *call)
{
    void (*f)(void);
    memcpy(&f, call, sizeof f);
    f();
    return NULL;
}

/* How much of a painted stack a thread has written to that makes the call. */
static size_t used(void (*call)(void))
{
    pthread_attr_t attr;
    pthread_t thread;
    uint8_t *stack;
    size_t at = 0;
    if (posix_memalign((void **)&stack, 65536, STACK) != 0)
        abort();
    memset(stack, PAINT, STACK);
    if (pthread_attr_init(&attr) != 0 || pthread_attr_setstack(&attr, stack, STACK) != 0 || pthread_create(&thread, &attr, in_thread, &call) != 0 ||
        pthread_join(thread, NULL) != 0)
        abort();
    while (at < STACK && stack[at] == PAINT)
        at++;
    free(stack);
    return STACK - at;
}

int main(void)
{
    static const struct {
        const char *name;
        void (*call)(void);
        size_t most;
    } calls[] = {
        {"header", header, 1024},
        {"name", name, 1024},
        {"start", start, 1024},
        {"step", step, 1024},
        {"walk", walk, 1024},
        {"step at an error", step_error, 1024},
        {"step_prefix", step_prefix, 1024},
        {"check", check, 1024},
        {"record_start", record_start, 1024},
        {"lookup", lookup, 1024},
        {"prefix", prefix, 1024},
        {"ask", ask, 1024},
        {"loose", loose, 1024},
        {"merge", merge, 80 * 1024},
    };
    size_t i, base, took;
    int failed = 0;

    /* as many edits as are taken: update refs/s/0000 and so on */
    edits = malloc(4096 * 33);
    out_len = 1 << 20;
    out = malloc(out_len);
    if (edits == NULL || out == NULL)
        abort();
    for (i = 0; i < 4096; i++) {
        char text[32];
        sprintf(text, "\1\13refs/s/%04x", (unsigned)i);
        memcpy(edits + edits_len, text, 13);
        memset(edits + edits_len + 13, 0x44, 20);
        edits_len += 33;
    }
    used(nothing);
    base = used(nothing);
    for (i = 0; i < sizeof calls / sizeof calls[0]; i++) {
        took = used(calls[i].call) - base;
        if (took > calls[i].most) {
            printf("packed_refs_%s takes %lu bytes of stack, not below %lu\n", calls[i].name, (unsigned long)took, (unsigned long)calls[i].most);
            failed = 1;
        }
        if (calls[i].call == merge)
            printf("a merge takes %lu bytes of stack\n", (unsigned long)took);
    }
    free(edits);
    free(out);
    return failed;
}
