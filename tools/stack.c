/* Asks the largest texts, accepted and refused, in threads with 64 KiB of stack, in one call and as reading and asking, also how
 * each rule matches, and says how much of the stack the deepest call used.
 * The stack is filled with one byte before the thread starts; what is no longer that byte afterwards was used. */
#define _GNU_SOURCE
#include "sidluqethe.h"
#include <pthread.h>
#include <stdio.h>
#include <stdlib.h>
#include <string.h>
#include <sys/mman.h>

#define GUARD 4096
#define STACK 65536
#define PAINT 0xa5
#define TEXT 65535

static uint8_t text[TEXT + 1];
static size_t length;
static uint8_t path[4096];
static size_t path_length;
static uint8_t answer[SIDLUQETHE_ANSWER_BYTES];
static uint64_t memory[SIDLUQETHE_MEMORY_WORDS];

static void put(const char *bytes) {
    size_t n = strlen(bytes);
    if (length + n > TEXT) abort();
    memcpy(text + length, bytes, n);
    length += n;
}

/* Fills the text up to n bytes with a comment. */
static void fill(size_t n) {
    put("#");
    while (length < n) text[length++] = 'c';
}

static void path_of(size_t n, char byte) {
    path[0] = '/';
    memset(path + 1, byte, n - 1);
    path_length = n;
}

static void *ask(void *unused) {
    sidluqethe_decide(text, length, (const uint8_t *)"p", 1, path, path_length, 127, 1, answer, sizeof answer);
    return unused;
}

static void *read_once(void *unused) {
    sidluqethe_read(text, length, memory, SIDLUQETHE_MEMORY_WORDS, answer, sizeof answer);
    return unused;
}

static void *ask_often(void *unused) {
    sidluqethe_ask(text, length, memory, SIDLUQETHE_MEMORY_WORDS, (const uint8_t *)"p", 1, path, path_length, 127, 1, answer,
                   sizeof answer);
    return unused;
}

static void *match_all(void *unused) {
    for (size_t rule = 0; rule < sidluqethe_rule_count(memory); rule++)
        sidluqethe_match(text, length, memory, SIDLUQETHE_MEMORY_WORDS, (const uint8_t *)"p", 1, path, path_length, 1, rule);
    return unused;
}

/* One call that does nothing: what a thread uses of its stack by itself. */
static void *rest(void *unused) { return unused; }

/* The stack, above a page that may not be touched. */
static uint8_t *stack;

static void make_stack(void) {
    uint8_t *memory = mmap(NULL, GUARD + STACK, PROT_NONE, MAP_PRIVATE | MAP_ANONYMOUS, -1, 0);
    if (memory == MAP_FAILED || mprotect(memory + GUARD, STACK, PROT_READ | PROT_WRITE)) {
        fprintf(stderr, "stack: no memory\n");
        exit(2);
    }
    stack = memory + GUARD;
}

static size_t used(void *(*work)(void *)) {
    pthread_attr_t attributes;
    pthread_t thread;
    size_t i = 0;
    memset(stack, PAINT, STACK);
    if (pthread_attr_init(&attributes) || pthread_attr_setstack(&attributes, stack, STACK)
        || pthread_create(&thread, &attributes, work, NULL) || pthread_join(thread, NULL)) {
        fprintf(stderr, "stack: no thread\n");
        exit(2);
    }
    while (i < STACK && stack[i] == PAINT) i++;
    return STACK - i;
}

static size_t most;

/* Does the work, and tells a text that is not answered as wanted or a stack that was full. */
static void work(const char *what, void *(*call)(void *), unsigned refusal) {
    size_t own = used(rest), all = used(call);
    if (answer[SIDLUQETHE_AT_REFUSAL] != refusal || all == STACK) {
        fprintf(stderr, "stack: %s: refusal %u, %zu bytes used\n", what, answer[SIDLUQETHE_AT_REFUSAL], all);
        exit(1);
    }
    if (all - own > most) most = all - own;
}

/* Asks in one call, and by reading, asking and matching where the text is accepted. */
static void expect(const char *what, unsigned refusal) {
    int text_refused = refusal == SIDLUQETHE_LONG_TEXT || refusal == SIDLUQETHE_BAD_FORM;
    work(what, ask, refusal);
    work(what, read_once, text_refused ? refusal : 0);
    if (text_refused) return;
    work(what, ask_often, refusal);
    work(what, match_all, refusal);
}

/* 32 variables, each used by the next; v is the value of the first. */
static void chain(const char *v) {
    char line[64];
    put("@{A}=");
    put(v);
    put("\n");
    for (int i = 1; i < 32; i++) {
        snprintf(line, sizeof line, i == 1 ? "@{A1}=@{A}\n" : "@{A%d}=@{A%d}\n", i, i - 1);
        put(line);
    }
}

/* A pattern of so many pieces, `/` and then stars and ones in turn, with its permissions. */
static void stars(int pieces) {
    put("/");
    for (int i = 1; i < pieces; i++) put(i % 2 ? "*" : "?");
    put(" rwmlkpx -> t,\n");
}

int main(void) {
    char line[64];
    make_stack();
    /* the most rules and bytes */
    length = 0;
    put("profile p {\n");
    for (int i = 0; i < 512; i++) {
        snprintf(line, sizeof line, "  owner /%d/** rwmlkpx -> t,\n", i);
        put(line);
    }
    put("}\n");
    fill(TEXT);
    path_of(4095, 'a');
    expect("512 rules", 0);
    length--;
    text[length++] = 0;
    expect("a NUL at the end", SIDLUQETHE_BAD_FORM);

    /* variables of variables, and as many pieces and places as there may be */
    length = 0;
    chain("/");
    put("profile p {\n  @{A31}** rwmlkpx -> t,\n");
    stars(1024);
    put("}\n");
    expect("variables of variables", 0);
    length -= 2;
    expect("no end", SIDLUQETHE_BAD_FORM);

    /* the most values, expansions and alternatives */
    length = 0;
    for (int v = 0; v < 32; v++) {
        snprintf(line, sizeof line, "@{V%d}=", v);
        put(line);
        for (int k = 0; k < 16; k++) put("\"/*?\" ");
        put("\n");
    }
    put("profile p {\n  @{V0}@{V31} rwmlkpx -> t,\n  /{a,b,**,\\?}{[a-z],[^a],*,}[a-z]** r,\n}\n");
    fill(TEXT);
    expect("values", 0);
    length = TEXT + 1;
    text[TEXT] = 'c';
    expect("a byte too many", SIDLUQETHE_LONG_TEXT);

    /* a bad path, and no such profile */
    length = TEXT;
    path_length = 4096;
    expect("a long path", SIDLUQETHE_BAD_PATH);
    path_of(4095, 'a');
    length = 0;
    put("profile q {}");
    expect("another profile", SIDLUQETHE_NO_PROFILE);

    if (most >= SIDLUQETHE_STACK_BYTES) {
        fprintf(stderr, "stack: %zu bytes used, the header says less than %d\n", most, SIDLUQETHE_STACK_BYTES);
        return 1;
    }
    printf("stack: %zu bytes at most, less than %d\n", most, SIDLUQETHE_STACK_BYTES);
    return 0;
}
