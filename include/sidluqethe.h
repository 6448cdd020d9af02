/* Sidluqethe: does this step's AppArmor profile let it have this file?
 *
 * `make` builds the library and `make install PREFIX=...` installs it; a program is then built with
 * `cc program.c $(pkg-config --cflags --libs sidluqethe)`. examples/c is a whole program.
 *
 * What holds for every function of the library:
 * - Threads: it keeps no state, so any number of threads may call at once. Threads that only ask may share a text and the memory
 *   filled from it; each needs a buffer of its own.
 * - Allocation: it allocates nothing, takes no lock and makes no system call. Of the C library it needs memcpy and memset.
 * - Stack: a call uses less than SIDLUQETHE_STACK_BYTES bytes of the caller's stack. That is measured on the largest texts
 *   (tools/stack.c), not proved.
 * - Cost: asking 10, 100 or 500 rules with plain patterns takes some 5,000, 7,000 or 16,000 instructions, reading 100 of them some
 *   500,000 (docs/FIGURES.md). Every call ends, but no bound on its time is promised: by those figures the worst pattern within
 *   all sizes takes more than an hour on the longest path, and a text may hold 512 such patterns. A caller who takes profiles from
 *   strangers has to limit the time from outside.
 * - Overlap: what a call writes, memory or buffer, may not overlap anything else that the call is given. What is only read may
 *   overlap, or be the same bytes.
 * - Null: no pointer may be null, even with length 0. Memory is aligned as uint64_t is; everything else may stand at any address.
 * - Lifetimes: no pointer is kept when a call returns. A text must stay as it is for as long as memory filled from it is asked.
 * - Language: C99 or later, or C++.
 * - Architecture: x86-64 Linux, where a word of memory is 64 bits, lowest byte first. The code is position-independent.
 * - Backtraces: the code has no unwind tables, so a backtrace stops there. It calls nothing of the caller's and never throws.
 */
#ifndef SIDLUQETHE_H
#define SIDLUQETHE_H

#include <stddef.h>
#include <stdint.h>

#ifdef __cplusplus
extern "C" {
#endif

/* The version of this header; a caller may test it at compile time. */
#define SIDLUQETHE_VERSION_MAJOR 0
#define SIDLUQETHE_VERSION_MINOR 3
#define SIDLUQETHE_VERSION_PATCH 0
#define SIDLUQETHE_VERSION (10000 * SIDLUQETHE_VERSION_MAJOR + 100 * SIDLUQETHE_VERSION_MINOR + SIDLUQETHE_VERSION_PATCH)

/* The version of the library that is linked, as SIDLUQETHE_VERSION writes it. */
uint32_t sidluqethe_version(void);

/* Permissions; a set is their sum. */
enum {
    SIDLUQETHE_READ = 1,
    SIDLUQETHE_WRITE = 2,
    SIDLUQETHE_APPEND = 4,
    SIDLUQETHE_MAP = 8,
    SIDLUQETHE_LINK = 16,
    SIDLUQETHE_LOCK = 32,
    SIDLUQETHE_EXECUTE = 64
};

/* The number of the layout below; 1 had no column. A caller may test it at compile time. One that was built for layout 1 lends 264
 * bytes, which is too short: 0 is returned and nothing is written. */
#define SIDLUQETHE_LAYOUT 2

/* The layout of an answer: places in its bytes. A refusal of the text (4 to 10) has a line and a column, each in four bytes, lowest
 * first; the others have 0 and 0. The line is 1 plus the LFs before the offending token. The column is the bytes since the last LF
 * before the token's first byte, counted from 1; at the text's end, one past the last byte of that line. Both are at most 65,536. */
enum {
    SIDLUQETHE_AT_REFUSAL = 0,        /* number of the refusal, 0 where there is an answer */
    SIDLUQETHE_AT_GRANTED = 1,        /* set of granted permissions */
    SIDLUQETHE_AT_RECORDED = 2,       /* set of permissions to record */
    SIDLUQETHE_AT_EXECUTE = 3,        /* an execute answer, see below */
    SIDLUQETHE_AT_LINE = 4,           /* line of the refusal */
    SIDLUQETHE_AT_COLUMN = 8,         /* column of the refusal */
    SIDLUQETHE_AT_TARGET_LENGTH = 12, /* length of the target, 0 where there is none */
    SIDLUQETHE_AT_TARGET = 13,        /* 255 bytes of the target, zero beyond its length */
    SIDLUQETHE_ANSWER_BYTES = 268
};

/* Execute answers. */
enum {
    SIDLUQETHE_NOT_ASKED = 0,
    SIDLUQETHE_DENIED = 1,
    SIDLUQETHE_CONFLICT = 2,
    SIDLUQETHE_UX = 3,
    SIDLUQETHE_UX_SCRUB = 4,  /* Ux */
    SIDLUQETHE_PX = 5,
    SIDLUQETHE_PX_SCRUB = 6,  /* Px */
    SIDLUQETHE_CX = 7,
    SIDLUQETHE_CX_SCRUB = 8,  /* Cx */
    SIDLUQETHE_IX = 9,
    SIDLUQETHE_PIX = 10,
    SIDLUQETHE_PIX_SCRUB = 11, /* Pix */
    SIDLUQETHE_CIX = 12,
    SIDLUQETHE_CIX_SCRUB = 13, /* Cix */
    SIDLUQETHE_PUX = 14,
    SIDLUQETHE_PUX_SCRUB = 15, /* PUx */
    SIDLUQETHE_CUX = 16,
    SIDLUQETHE_CUX_SCRUB = 17  /* CUx */
};

/* Refusals. */
enum {
    SIDLUQETHE_LONG_TEXT = 1,      /* text over 65,535 bytes */
    SIDLUQETHE_BAD_PATH = 2,       /* path empty, over 4,095 bytes, not starting /, holding NUL or // */
    SIDLUQETHE_BAD_ASKED = 3,      /* asked set 0 or over 127 */
    SIDLUQETHE_BAD_FORM = 4,
    SIDLUQETHE_NOT_TAKEN = 5,      /* word not taken */
    SIDLUQETHE_BAD_VARIABLE = 6,
    SIDLUQETHE_BAD_PATTERN = 7,
    SIDLUQETHE_BAD_PERMISSIONS = 8,
    SIDLUQETHE_TOO_MUCH = 9,       /* a size passed */
    SIDLUQETHE_USED_TWICE = 10,    /* profile name used twice */
    SIDLUQETHE_NO_PROFILE = 11     /* no profile with that name */
};

/* An answer as a struct: a view of the bytes above, which may be given wherever a buffer is asked for. One that is all zeros grants
 * nothing. */
typedef struct sidluqethe_answer {
    uint8_t refusal;         /* number of the refusal, 0 where there is an answer */
    uint8_t granted;         /* set of granted permissions */
    uint8_t recorded;        /* set of permissions to record */
    uint8_t execute;         /* an execute answer */
    uint8_t line_bytes[4];   /* see sidluqethe_line */
    uint8_t column_bytes[4]; /* see sidluqethe_column */
    uint8_t target_length;   /* length of the target, 0 where there is none */
    uint8_t target[255];     /* the target, zero beyond its length */
} sidluqethe_answer;

#if defined(__cplusplus) && __cplusplus >= 201103L
static_assert(sizeof(sidluqethe_answer) == SIDLUQETHE_ANSWER_BYTES, "an answer has another size");
#elif defined(__STDC_VERSION__) && __STDC_VERSION__ >= 201112L
_Static_assert(sizeof(sidluqethe_answer) == SIDLUQETHE_ANSWER_BYTES, "an answer has another size");
#endif

/* One call uses less than so many bytes of the caller's stack. */
enum { SIDLUQETHE_STACK_BYTES = 49152 };

/* ---- Read once, ask often.
 *
 * The caller lends memory for what is read of a text: SIDLUQETHE_HEAD_WORDS words, and SIDLUQETHE_RULE_WORDS for each rule.
 * SIDLUQETHE_MEMORY_WORDS are enough for every text. The words are places in the text, counts and sets; they hold no pointers, so
 * memory may be moved and copied. Another minor version may lay them out otherwise. Asking only reads them. */
enum {
    SIDLUQETHE_HEAD_WORDS = 1256,
    SIDLUQETHE_RULE_WORDS = 12,
    SIDLUQETHE_RULES = 512,
    SIDLUQETHE_MEMORY_WORDS = SIDLUQETHE_HEAD_WORDS + SIDLUQETHE_RULES * SIDLUQETHE_RULE_WORDS
};

/* What may be read of memory that a text has filled: words of its head, and of each profile and rule. Both are numbered from 0, in
 * the text's order, rules over all profiles. */
enum {
    SIDLUQETHE_AT_PROFILES = 1120, /* of each profile SIDLUQETHE_PROFILE_WORDS: where its name starts, where it ends */
    SIDLUQETHE_PROFILE_WORDS = 4,
    SIDLUQETHE_AT_VARIABLE_COUNT = 1248,
    SIDLUQETHE_AT_PROFILE_COUNT = 1249,
    SIDLUQETHE_AT_RULE_COUNT = 1250,
    SIDLUQETHE_AT_RULES = SIDLUQETHE_HEAD_WORDS, /* of each rule SIDLUQETHE_RULE_WORDS: */
    SIDLUQETHE_RULE_AT_PROFILE = 0,              /* number of its profile */
    SIDLUQETHE_RULE_AT_PATTERN = 5,              /* where its pattern starts; the next word: where it ends */
    SIDLUQETHE_RULE_AT_TARGET = 7,               /* where its target starts; the next word: where it ends */
    SIDLUQETHE_RULE_AT_QUALIFIERS = 9,           /* sum of its qualifiers */
    SIDLUQETHE_RULE_AT_PERMISSIONS = 10,         /* set of its permissions: with w there is a as well */
    SIDLUQETHE_RULE_AT_TRANSITION = 11           /* its transition: see sidluqethe_rule_execute */
};

/* Qualifiers of a rule. */
enum {
    SIDLUQETHE_AUDIT = 1,
    SIDLUQETHE_DENY = 2,
    SIDLUQETHE_OWNER = 4
};

/* Reads a text into memory and returns SIDLUQETHE_ANSWER_BYTES. The buffer then holds an answer: its refusal, line and column say
 * why the text is refused and where, or are 0 where it is accepted; nothing is granted. A text that is refused leaves memory as it
 * was. With room for fewer rules than the text has, it is refused 9 at the pattern of the first rule that finds none; words beyond
 * the last rule stay.
 * Where memory has fewer words than SIDLUQETHE_HEAD_WORDS, or the buffer too few bytes, 0 is returned and nothing is written. */
size_t sidluqethe_read(const uint8_t *text, size_t text_length,
                       uint64_t *memory, size_t memory_words,
                       void *buffer, size_t buffer_length);

/* Writes the answer to a request into the buffer, as sidluqethe_decide does. Memory is what sidluqethe_read filled, with the same
 * text: then the answers are those of sidluqethe_decide. Give as many words as sidluqethe_read was given: with fewer the last rules
 * are not asked, and one that denies may be among them. Any other words and text end in an answer too, which means nothing but that a
 * rule whose places hold no good pattern or target matches nothing. */
size_t sidluqethe_ask(const uint8_t *text, size_t text_length,
                      const uint64_t *memory, size_t memory_words,
                      const uint8_t *name, size_t name_length,
                      const uint8_t *path, size_t path_length,
                      uint8_t asked, uint8_t owner,
                      void *buffer, size_t buffer_length);

/* How rule number `rule` of what memory holds matches a request for a file: the rules that an answer comes from are those that
 * match, whatever is asked for. SIDLUQETHE_NO_MATCH also where the rule is another profile's, where there is no such rule, and for
 * a request that is refused 1, 2 or 11. Memory is what sidluqethe_read filled, with the same text, as in sidluqethe_ask. */
enum {
    SIDLUQETHE_NO_MATCH = 0,
    SIDLUQETHE_MATCH = 1,
    SIDLUQETHE_EXACT_MATCH = 2 /* some matching expansion of the pattern is literals only */
};

uint8_t sidluqethe_match(const uint8_t *text, size_t text_length,
                         const uint64_t *memory, size_t memory_words,
                         const uint8_t *name, size_t name_length,
                         const uint8_t *path, size_t path_length,
                         uint8_t owner, size_t rule);

/* ---- Read and ask in one call.
 *
 * Writes the answer to a request into the buffer and returns SIDLUQETHE_ANSWER_BYTES. A buffer of fewer bytes
 * stays as it was, and 0 is returned. owner is 0 where the file is not the step's own, any other number where it is.
 * Text, name and path need no terminating NUL. */
size_t sidluqethe_decide(const uint8_t *text, size_t text_length,
                         const uint8_t *name, size_t name_length,
                         const uint8_t *path, size_t path_length,
                         uint8_t asked, uint8_t owner,
                         void *buffer, size_t buffer_length);

/* ---- Readers of an answer. */

/* The number in four bytes, lowest first. */
static inline uint32_t sidluqethe_number(const uint8_t *bytes) {
    const uint32_t first = bytes[0], second = bytes[1], third = bytes[2], fourth = bytes[3];
    return first | second << 8 | third << 16 | fourth << 24;
}

/* The line of a refusal of the text, from 1; 0 for any other answer. */
static inline uint32_t sidluqethe_line(const sidluqethe_answer *answer) {
    return sidluqethe_number(answer->line_bytes);
}

/* The column of a refusal of the text, in bytes from 1; 0 for any other answer. */
static inline uint32_t sidluqethe_column(const sidluqethe_answer *answer) {
    return sidluqethe_number(answer->column_bytes);
}

/* Whether there is an answer and it grants everything asked: 1 or 0. Asking for nothing is refused, so nothing is never granted. */
static inline int sidluqethe_grants(const sidluqethe_answer *answer, uint8_t asked) {
    return answer->refusal == 0 && asked != 0 && (asked & ~answer->granted) == 0;
}

/* What a refusal's number means. */
static inline const char *sidluqethe_meaning(uint8_t refusal) {
    static const char *const meanings[] = {
        "not refused",
        "text over 65,535 bytes",
        "path empty, over 4,095 bytes, not starting `/`, holding NUL or `//`",
        "asked set 0 or over 127",
        "bad form",
        "word not taken",
        "bad variable",
        "bad pattern",
        "bad permissions",
        "a size passed",
        "profile name used twice",
        "no profile with that name",
    };
    return refusal <= SIDLUQETHE_NO_PROFILE ? meanings[refusal] : "unknown refusal";
}

/* The name of an execute answer: for a transition the mode as a rule writes it. */
static inline const char *sidluqethe_execute_name(uint8_t execute) {
    static const char *const names[] = {
        "not asked", "denied", "conflict", "ux",  "Ux",  "px",  "Px",  "cx",  "Cx",
        "ix",        "pix",    "Pix",      "cix", "Cix", "pux", "PUx", "cux", "CUx",
    };
    return execute <= SIDLUQETHE_CUX_SCRUB ? names[execute] : "unknown";
}

/* ---- Readers of memory that a text has filled; `profile` and `rule` are below their counts. */

/* A piece of the text: its bytes from a place to before another. Of a quoted token it is what stands between the quotes. */
typedef struct sidluqethe_place {
    size_t from, end;
} sidluqethe_place;

static inline sidluqethe_place sidluqethe_place_at(const uint64_t *words) {
    sidluqethe_place place;
    place.from = words[0];
    place.end = words[1];
    return place;
}

static inline size_t sidluqethe_variable_count(const uint64_t *memory) {
    return memory[SIDLUQETHE_AT_VARIABLE_COUNT];
}

static inline size_t sidluqethe_profile_count(const uint64_t *memory) {
    return memory[SIDLUQETHE_AT_PROFILE_COUNT];
}

static inline size_t sidluqethe_rule_count(const uint64_t *memory) {
    return memory[SIDLUQETHE_AT_RULE_COUNT];
}

static inline sidluqethe_place sidluqethe_profile_name(const uint64_t *memory, size_t profile) {
    return sidluqethe_place_at(memory + SIDLUQETHE_AT_PROFILES + SIDLUQETHE_PROFILE_WORDS * profile);
}

/* The words of a rule. */
static inline const uint64_t *sidluqethe_rule_words(const uint64_t *memory, size_t rule) {
    return memory + SIDLUQETHE_AT_RULES + SIDLUQETHE_RULE_WORDS * rule;
}

/* The number of a rule's profile. */
static inline size_t sidluqethe_rule_profile(const uint64_t *memory, size_t rule) {
    return sidluqethe_rule_words(memory, rule)[SIDLUQETHE_RULE_AT_PROFILE];
}

static inline sidluqethe_place sidluqethe_rule_pattern(const uint64_t *memory, size_t rule) {
    return sidluqethe_place_at(sidluqethe_rule_words(memory, rule) + SIDLUQETHE_RULE_AT_PATTERN);
}

/* A rule's target; it ends where it starts where there is none. */
static inline sidluqethe_place sidluqethe_rule_target(const uint64_t *memory, size_t rule) {
    return sidluqethe_place_at(sidluqethe_rule_words(memory, rule) + SIDLUQETHE_RULE_AT_TARGET);
}

static inline uint8_t sidluqethe_rule_qualifiers(const uint64_t *memory, size_t rule) {
    return sidluqethe_rule_words(memory, rule)[SIDLUQETHE_RULE_AT_QUALIFIERS] & 7;
}

static inline uint8_t sidluqethe_rule_permissions(const uint64_t *memory, size_t rule) {
    return sidluqethe_rule_words(memory, rule)[SIDLUQETHE_RULE_AT_PERMISSIONS] & 127;
}

/* A rule's transition as an execute answer: from SIDLUQETHE_UX on, or SIDLUQETHE_NOT_ASKED where it has none, as after deny. Its
 * word is 0 where there is none, else 1 + 2 * scrubs + 4 * kind + 16 * fallback: kind 0 to 3 is u, p, c, i; fallback 1 is i, 2 is
 * u. */
static inline uint8_t sidluqethe_rule_execute(const uint64_t *memory, size_t rule) {
    const unsigned word = sidluqethe_rule_words(memory, rule)[SIDLUQETHE_RULE_AT_TRANSITION] & 63;
    const unsigned scrubs = word >> 1 & 1, kind = word >> 2 & 3, fallback = word >> 4;
    unsigned number = SIDLUQETHE_NOT_ASKED;
    if ((word & 1) != 0 && fallback == 0) number = SIDLUQETHE_UX + 2 * kind + scrubs;
    if ((word & 1) != 0 && fallback != 0) number = SIDLUQETHE_PIX + 4 * (fallback - 1) + 2 * (kind - 1) + scrubs;
    return number & 31;
}

#ifdef __cplusplus
}
#endif

#endif
