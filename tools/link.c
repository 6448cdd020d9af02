/* Asks the library about text T of document 01 (samples/step.profile), as a broker does. */
#include "sidluqethe.h"
#include <stdio.h>
#include <string.h>

#if SIDLUQETHE_LAYOUT != 2
#error "answers have another layout"
#endif
#if SIDLUQETHE_VERSION != 300
#error "the header has another version"
#endif

static const char text[] = "@{RUN}=/runs/a/ /runs/b/\n"
                           "profile step {\n"
                           "  @{RUN}in/* r,\n"
                           "  owner @{RUN}out/** rw,\n"
                           "  audit deny /runs/*/out/lock w,\n"
                           "  /bin/cat ix,\n"
                           "  /bin/* px -> tool,\n"
                           "}\n";

static uint64_t memory[SIDLUQETHE_MEMORY_WORDS];

/* The number in the four bytes at a place, lowest first. */
static unsigned long number(const uint8_t *at) {
    return at[0] | (unsigned long)at[1] << 8 | (unsigned long)at[2] << 16 | (unsigned long)at[3] << 24;
}

/* Tells where the struct, a view of the same bytes, says something else than the bytes at their places. */
static void view(const uint8_t *a, uint8_t asked) {
    sidluqethe_answer s;
    memcpy(&s, a, sizeof s);
    if (s.refusal != a[SIDLUQETHE_AT_REFUSAL] || s.granted != a[SIDLUQETHE_AT_GRANTED] || s.recorded != a[SIDLUQETHE_AT_RECORDED]
        || s.execute != a[SIDLUQETHE_AT_EXECUTE] || s.target_length != a[SIDLUQETHE_AT_TARGET_LENGTH]
        || memcmp(s.target, a + SIDLUQETHE_AT_TARGET, sizeof s.target))
        printf("viewed otherwise: ");
    if (sidluqethe_line(&s) != number(a + SIDLUQETHE_AT_LINE) || sidluqethe_column(&s) != number(a + SIDLUQETHE_AT_COLUMN))
        printf("placed otherwise: ");
    if (sidluqethe_grants(&s, asked) != (s.refusal == 0 && (s.granted & asked) == asked)) printf("granted otherwise: ");
}

/* Asks the text, and then what was read of it: both answers are the same bytes. */
static void ask(const char *name, const char *path, uint8_t asked, uint8_t owner) {
    uint8_t a[SIDLUQETHE_ANSWER_BYTES], b[SIDLUQETHE_ANSWER_BYTES];
    size_t n = sidluqethe_decide((const uint8_t *)text, strlen(text), (const uint8_t *)name, strlen(name),
                                 (const uint8_t *)path, strlen(path), asked, owner, a, sizeof a);
    size_t m = sidluqethe_ask((const uint8_t *)text, strlen(text), memory, SIDLUQETHE_MEMORY_WORDS, (const uint8_t *)name,
                              strlen(name), (const uint8_t *)path, strlen(path), asked, owner, b, sizeof b);
    if (n != m || memcmp(a, b, sizeof a)) printf("asked otherwise: ");
    view(a, asked);
    printf("%zu %u %lu %lu %u %u %u %.*s\n", n, a[SIDLUQETHE_AT_REFUSAL], number(a + SIDLUQETHE_AT_LINE),
           number(a + SIDLUQETHE_AT_COLUMN), a[SIDLUQETHE_AT_GRANTED], a[SIDLUQETHE_AT_RECORDED], a[SIDLUQETHE_AT_EXECUTE],
           a[SIDLUQETHE_AT_TARGET_LENGTH], (const char *)a + SIDLUQETHE_AT_TARGET);
}

/* Reads the text with room for so many rules, and shows what came back and whether words changed. */
static void read_within(size_t rules) {
    static uint64_t words[SIDLUQETHE_MEMORY_WORDS];
    uint8_t a[SIDLUQETHE_ANSWER_BYTES];
    size_t i, changed = 0, beyond = 0;
    for (i = 0; i < SIDLUQETHE_MEMORY_WORDS; i++) words[i] = 7;
    size_t n = sidluqethe_read((const uint8_t *)text, strlen(text), words, SIDLUQETHE_HEAD_WORDS + rules * SIDLUQETHE_RULE_WORDS, a,
                               sizeof a);
    for (i = 0; i < SIDLUQETHE_MEMORY_WORDS; i++) {
        changed |= words[i] != 7;
        beyond |= words[i] != 7 && i >= SIDLUQETHE_HEAD_WORDS + 5 * SIDLUQETHE_RULE_WORDS;
    }
    printf("%zu %u %lu %lu %s%s\n", n, a[SIDLUQETHE_AT_REFUSAL], number(a + SIDLUQETHE_AT_LINE), number(a + SIDLUQETHE_AT_COLUMN),
           changed ? "filled" : "as found", beyond ? ", beyond the last rule" : "");
}

/* Has a text refused in one call and by reading, and shows the place with each byte of its column. The text is `front`, so many
 * blanks and `back`. */
static void refused(const char *front, size_t blanks, const char *back) {
    static uint8_t bytes[65535];
    static uint64_t words[SIDLUQETHE_MEMORY_WORDS];
    uint8_t a[SIDLUQETHE_ANSWER_BYTES], b[SIDLUQETHE_ANSWER_BYTES];
    const uint8_t *column = a + SIDLUQETHE_AT_COLUMN;
    size_t f = strlen(front), all = f + blanks + strlen(back);
    memcpy(bytes, front, f);
    memset(bytes + f, ' ', blanks);
    memcpy(bytes + f + blanks, back, strlen(back));
    size_t n = sidluqethe_decide(bytes, all, (const uint8_t *)"step", 4, (const uint8_t *)"/a", 2, 1, 0, a, sizeof a);
    size_t m = sidluqethe_read(bytes, all, words, SIDLUQETHE_MEMORY_WORDS, b, sizeof b);
    if (n != m || memcmp(a, b, sizeof a)) printf("read otherwise: ");
    view(a, 1);
    printf("%zu %u %lu %lu: %u %u %u %u\n", n, a[SIDLUQETHE_AT_REFUSAL], number(a + SIDLUQETHE_AT_LINE), number(column), column[0],
           column[1], column[2], column[3]);
}

/* A pattern of bytes, and whether so many still hold it: what a call leaves alone is the same byte for byte. */
static void put_pattern(void *at, size_t length) {
    size_t i;
    for (i = 0; i < length; i++) ((uint8_t *)at)[i] = (uint8_t)(151 * i + 7);
}

static int has_pattern(const void *at, size_t length) {
    size_t i;
    for (i = 0; i < length; i++)
        if (((const uint8_t *)at)[i] != (uint8_t)(151 * i + 7)) return 0;
    return 1;
}

/* Reads a text into so many words and bytes of rooms with a pattern, and shows what came back and which of them changed. */
static void read_into(const char *of, size_t words, size_t bytes) {
    static uint64_t room[SIDLUQETHE_MEMORY_WORDS];
    uint8_t a[SIDLUQETHE_ANSWER_BYTES];
    put_pattern(room, sizeof room);
    put_pattern(a, sizeof a);
    size_t n = sidluqethe_read((const uint8_t *)of, strlen(of), room, words, a, bytes);
    printf("%zu: memory %s, buffer %s\n", n, has_pattern(room, sizeof room) ? "as found" : "filled",
           has_pattern(a, sizeof a) ? "as found" : "filled");
}

/* Memory one word short, a buffer one byte short, nothing at all; then a text that is refused behind all its rules, and text T. */
static void read_short(void) {
    static char cut[sizeof text];
    memcpy(cut, text, sizeof text);
    cut[strlen(text) - 2] = '{';
    read_into(text, SIDLUQETHE_HEAD_WORDS - 1, SIDLUQETHE_ANSWER_BYTES);
    read_into(text, SIDLUQETHE_MEMORY_WORDS, SIDLUQETHE_ANSWER_BYTES - 1);
    read_into(text, 0, 0);
    read_into(cut, SIDLUQETHE_MEMORY_WORDS, SIDLUQETHE_ANSWER_BYTES);
    read_into(text, SIDLUQETHE_MEMORY_WORDS, SIDLUQETHE_ANSWER_BYTES);
}

/* The answer that text T gives with any words, as the owner of the file. */
static sidluqethe_answer ask_words(const uint64_t *words, size_t count, const char *name, const char *path, uint8_t asked) {
    sidluqethe_answer a;
    put_pattern(&a, sizeof a);
    size_t n = sidluqethe_ask((const uint8_t *)text, strlen(text), words, count, (const uint8_t *)name, strlen(name),
                              (const uint8_t *)path, strlen(path), asked, 1, &a, sizeof a);
    if (n != sizeof a) printf("no answer: ");
    return a;
}

/* Asks the first words alone of what text T filled. Below the number of profiles there are none; below the first rule nothing is
 * granted. Shows how many asks went otherwise, and what the first words with one rule grant. */
static void ask_short(void) {
    size_t words, otherwise = 0;
    for (words = 0; words < SIDLUQETHE_HEAD_WORDS; words++) {
        const sidluqethe_answer a = ask_words(memory, words, "step", "/runs/a/in/x", SIDLUQETHE_READ);
        const uint8_t refusal = words <= SIDLUQETHE_AT_PROFILE_COUNT ? SIDLUQETHE_NO_PROFILE : 0;
        otherwise += a.refusal != refusal || a.granted != 0;
    }
    words = SIDLUQETHE_HEAD_WORDS + SIDLUQETHE_RULE_WORDS;
    printf("%zu %u\n", otherwise, ask_words(memory, words, "step", "/runs/a/in/x", SIDLUQETHE_READ).granted);
}

/* How many answers with these words, which text T has not filled, are none: a refusal that there is not, or more than was asked. */
static size_t no_answers(const uint64_t *words) {
    static const char *const names[] = {"step", "", "tool"}, *const paths[] = {"/bin/ls", "/runs/a/out/lock", "/"};
    size_t i, rule, none = 0;
    for (i = 0; i < 9 * 127; i++) {
        const uint8_t asked = (uint8_t)(i / 9 + 1);
        const sidluqethe_answer a = ask_words(words, SIDLUQETHE_MEMORY_WORDS, names[i % 3], paths[i / 3 % 3], asked);
        none += a.refusal > SIDLUQETHE_NO_PROFILE || (a.granted & ~asked) != 0 || a.execute > SIDLUQETHE_CUX_SCRUB;
    }
    for (rule = 0; rule <= SIDLUQETHE_RULES; rule++)
        none += sidluqethe_match((const uint8_t *)text, strlen(text), words, SIDLUQETHE_MEMORY_WORDS, (const uint8_t *)"step", 4,
                                 (const uint8_t *)"/bin/ls", 7, 1, rule)
                > SIDLUQETHE_EXACT_MATCH;
    return none;
}

/* Words of all zeros, of all ones, of a pattern, and those of another text, whose profile stands where that of T does. */
static void ask_junk(void) {
    static const char other[] = "@{RUN}=/runs/a/ /runs/b/\n"
                                "profile step {\n"
                                "  /** rwmlk, /* ux, deny /b x, /bin/{ls,cat} Px -> a_rather_long_name_of_a_target, owner /r* a,\n"
                                "  /aaaaaaaaaaaaaaaaaaaaaaaaaaaaaaaaaaaaaaaaaaaaaaaaaaaaaaaaaaaaaaaaaaaaaaaaaaaaaaaaaaaaaaaaaaaaaaa r,\n"
                                "}\n";
    static uint64_t words[SIDLUQETHE_MEMORY_WORDS];
    sidluqethe_answer answer;
    memset(words, 0, sizeof words);
    printf("%zu", no_answers(words));
    memset(words, 255, sizeof words);
    printf(" %zu", no_answers(words));
    put_pattern(words, sizeof words);
    printf(" %zu", no_answers(words));
    sidluqethe_read((const uint8_t *)other, strlen(other), words, SIDLUQETHE_MEMORY_WORDS, &answer, sizeof answer);
    printf(" %zu of %zu rules\n", no_answers(words), sidluqethe_rule_count(words));
}

/* How each of the text's rules matches a path, and one past the last. */
static void match(const char *name, const char *path, uint8_t owner) {
    size_t rule;
    printf("%s %s%s:", name, path, owner ? " owner" : "");
    for (rule = 0; rule <= sidluqethe_rule_count(memory); rule++)
        printf(" %u", sidluqethe_match((const uint8_t *)text, strlen(text), memory, SIDLUQETHE_MEMORY_WORDS, (const uint8_t *)name,
                                       strlen(name), (const uint8_t *)path, strlen(path), owner, rule));
    printf("\n");
}

/* The paths of the marked cases, each with and without the owner mark; then what matches nothing. */
static void match_all(void) {
    static const char *const paths[] = {"/runs/a/in/x",     "/runs/c/in/x",  "/runs/a/in/d/x", "/runs/b/out/d/y",
                                        "/runs/a/out/lock", "/runs/b/out/y", "/bin/cat",       "/bin/ls"};
    size_t i;
    for (i = 0; i < sizeof paths / sizeof *paths; i++) {
        match("step", paths[i], 0);
        match("step", paths[i], 1);
    }
    match("other", "/bin/cat", 0);
    match("step", "bin/cat", 0);
}

static void put_place(const char *of, sidluqethe_place place) {
    printf(" %.*s", (int)(place.end - place.from), of + place.from);
}

/* What the readers say of memory that a text has filled: counts, the profiles' names, then each rule. */
static void show(const char *of, const uint64_t *words) {
    size_t i;
    printf("%zu %zu %zu", sidluqethe_variable_count(words), sidluqethe_profile_count(words), sidluqethe_rule_count(words));
    for (i = 0; i < sidluqethe_profile_count(words); i++) put_place(of, sidluqethe_profile_name(words, i));
    printf("\n");
    for (i = 0; i < sidluqethe_rule_count(words); i++) {
        printf("%zu %u %u %s", sidluqethe_rule_profile(words, i), sidluqethe_rule_qualifiers(words, i),
               sidluqethe_rule_permissions(words, i), sidluqethe_execute_name(sidluqethe_rule_execute(words, i)));
        put_place(of, sidluqethe_rule_pattern(words, i));
        put_place(of, sidluqethe_rule_target(words, i));
        printf("\n");
    }
}

/* Two profiles, quoted tokens, each qualifier and each transition. */
static void show_others(void) {
    static const char other[] = "profile \"a b\" {\n"
                                "  audit owner \"/q r\" mlk,\n"
                                "  deny /d wx,\n"
                                "}\n"
                                "/b {\n"
                                "  /1 ux, /2 Ux, /3 px, /4 Px -> \"t\", /5 cx, /6 Cx, /7 rix, /8 pix, /9 Pix, /10 cix, /11 Cix,\n"
                                "  /12 pux, /13 PUx, /14 cux, /15 CUx -> u,\n"
                                "}\n";
    static uint64_t words[SIDLUQETHE_MEMORY_WORDS];
    sidluqethe_answer answer;
    sidluqethe_read((const uint8_t *)other, strlen(other), words, SIDLUQETHE_MEMORY_WORDS, &answer, sizeof answer);
    printf("%u: %s\n", answer.refusal, sidluqethe_meaning(answer.refusal));
    show(other, words);
}

/* How many words without the lowest bit are read as a transition: the library goes by that bit. */
static void no_transitions(void) {
    static uint64_t words[SIDLUQETHE_HEAD_WORDS + SIDLUQETHE_RULE_WORDS];
    unsigned word, read = 0;
    for (word = 0; word < 64; word += 2) {
        words[SIDLUQETHE_AT_RULES + SIDLUQETHE_RULE_AT_TRANSITION] = word;
        read += sidluqethe_rule_execute(words, 0) != SIDLUQETHE_NOT_ASKED;
    }
    printf("%u\n", read);
}

/* The names of all numbers, and of one too many; and what grants nothing. */
static void names(void) {
    sidluqethe_answer nothing;
    unsigned i;
    for (i = 0; i <= 12; i++) printf("%u %s\n", i, sidluqethe_meaning((uint8_t)i));
    for (i = 0; i <= 18; i++) printf("%s%s", i ? " " : "", sidluqethe_execute_name((uint8_t)i));
    memset(&nothing, 0, sizeof nothing);
    printf("\n%d %d", sidluqethe_grants(&nothing, 0), sidluqethe_grants(&nothing, 1));
    nothing.granted = SIDLUQETHE_READ;
    printf(" %d %d", sidluqethe_grants(&nothing, SIDLUQETHE_READ), sidluqethe_grants(&nothing, SIDLUQETHE_READ | SIDLUQETHE_WRITE));
    nothing.refusal = SIDLUQETHE_BAD_PATH;
    printf(" %d\n", sidluqethe_grants(&nothing, SIDLUQETHE_READ));
}

/* The marked cases, and a name that no profile has. */
static void ask_all(void) {
    ask("step", "/runs/a/in/x", 1, 0);
    ask("step", "/runs/c/in/x", 1, 0);
    ask("step", "/runs/a/in/d/x", 1, 0);
    ask("step", "/runs/b/out/d/y", 3, 1);
    ask("step", "/runs/b/out/d/y", 3, 0);
    ask("step", "/runs/a/out/lock", 3, 1);
    ask("step", "/runs/b/out/y", 4, 1);
    ask("step", "/bin/cat", 64, 0);
    ask("step", "/bin/ls", 64, 0);
    ask("step", "/bin/cat", 65, 0);
    ask("other", "/bin/cat", 64, 0);
}

int main(void) {
    uint8_t less[SIDLUQETHE_ANSWER_BYTES - 1], whole[SIDLUQETHE_ANSWER_BYTES];
    size_t n = sidluqethe_read((const uint8_t *)text, strlen(text), memory, SIDLUQETHE_MEMORY_WORDS, whole, sizeof whole);
    printf("%zu %u\n", n, whole[SIDLUQETHE_AT_REFUSAL]);
    ask_all();
    memset(less, 7, sizeof less);
    n = sidluqethe_decide((const uint8_t *)text, strlen(text), (const uint8_t *)"step", 4, (const uint8_t *)"/bin/ls", 7, 64, 0, less,
                          sizeof less);
    printf("%zu %u\n", n, less[0]);
    read_within(0);
    read_within(4);
    read_within(5);
    read_within(512);
    refused("profile step {\n", 1000, "/b{ r, }");
    refused("profile step {", 65521, "");
    read_short();
    ask_short();
    ask_junk();
    match_all();
    show(text, memory);
    show_others();
    no_transitions();
    names();
    printf("%d\n", sidluqethe_version() == SIDLUQETHE_VERSION);
    return 0;
}
