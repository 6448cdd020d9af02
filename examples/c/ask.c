/* Asks whether a profile lets a step have a file, as a broker does: reads the profile once, asks, and says which rules decided.
 *
 *     ask FILE PROFILE PATH PERMS [--owner]
 *
 * Exit status: 0 everything asked is granted, 1 something asked is refused, 2 the text or the call is refused, 3 reading or writing
 * failed. */
#include <errno.h>
#include <sidluqethe.h>
#include <stdio.h>
#include <string.h>

enum { GRANTED = 0, REFUSED = 1, BAD_CALL = 2, NO_FILE = 3 };

/* One byte more than a text may have: the library tells a text that is too long. */
enum { TEXT_BYTES = 65536 };

/* A profile text and what was read of it. Memory is large enough for every text, so that the library always writes an answer. */
struct policy {
    const char *file;
    uint8_t text[TEXT_BYTES];
    size_t length;
    uint64_t memory[SIDLUQETHE_MEMORY_WORDS];
};

struct request {
    const char *profile, *path;
    uint8_t asked, owner;
};

static const uint8_t *bytes(const char *string) {
    return (const uint8_t *)string;
}

/* Profiles come from others: what a terminal could act on is written as \xNN. */
static void put(FILE *out, const uint8_t *from, size_t length) {
    for (size_t i = 0; i < length; i++) {
        if (from[i] == '\\') fputs("\\\\", out);
        else if (from[i] < 32 || from[i] > 126) fprintf(out, "\\x%02x", from[i]);
        else putc(from[i], out);
    }
}

static void put_string(FILE *out, const char *string) {
    put(out, bytes(string), strlen(string));
}

/* The set of these letters; 0 where one is no permission. */
static uint8_t set_of(const char *letters) {
    static const char all[] = "rwamlkx";
    unsigned set = 0;
    for (; *letters; letters++) {
        const char *found = strchr(all, *letters);
        if (found == NULL) return 0;
        set |= 1u << (found - all);
    }
    return (uint8_t)set;
}

static void put_set(const char *title, unsigned set) {
    static const char *const names[] = {"read", "write", "append", "map", "link", "lock", "execute"};
    const char *before = "";
    printf("%-10s", title);
    for (unsigned i = 0; i < 7; i++) {
        if ((set >> i & 1) == 0) continue;
        printf("%s%s", before, names[i]);
        before = ", ";
    }
    puts(set == 0 ? "nothing" : "");
}

/* Reads a whole file, or as much of it as shows that it is too long. A file that cannot be read to its end is never asked. */
static int load(struct policy *policy, const char *file) {
    FILE *in = fopen(file, "rb");
    int error = 0;
    policy->file = file;
    if (in == NULL) {
        error = errno;
    } else {
        errno = 0;
        policy->length = fread(policy->text, 1, sizeof policy->text, in);
        if (ferror(in)) error = errno != 0 ? errno : EIO;
        fclose(in);
    }
    if (error == 0) return 0;
    put_string(stderr, file);
    fprintf(stderr, ": %s\n", strerror(error));
    return NO_FILE;
}

/* Tells a refusal as compilers do: the file, and the line and column where it has them. */
static int tell(const struct policy *policy, const sidluqethe_answer *answer) {
    put_string(stderr, policy->file);
    if (sidluqethe_line(answer) != 0)
        fprintf(stderr, ":%lu:%lu", (unsigned long)sidluqethe_line(answer), (unsigned long)sidluqethe_column(answer));
    fprintf(stderr, ": refused %d: %s\n", answer->refusal, sidluqethe_meaning(answer->refusal));
    return BAD_CALL;
}

/* The line of a place in the text, from 1. */
static unsigned long line_of(const struct policy *policy, size_t place) {
    unsigned long line = 1;
    for (size_t i = 0; i < place; i++) line += policy->text[i] == '\n';
    return line;
}

static void put_rule(const struct policy *policy, size_t rule, uint8_t match) {
    const sidluqethe_place pattern = sidluqethe_rule_pattern(policy->memory, rule);
    const int denies = sidluqethe_rule_qualifiers(policy->memory, rule) & SIDLUQETHE_DENY;
    printf("  ");
    put_string(stdout, policy->file);
    printf(":%lu: %s, %s: ", line_of(policy, pattern.from), denies ? "deny" : "allow",
           match == SIDLUQETHE_EXACT_MATCH ? "exactly" : "not exactly");
    put(stdout, policy->text + pattern.from, pattern.end - pattern.from);
    puts("");
}

/* Each rule that matches the request. */
static void put_rules(const struct policy *policy, const struct request *request) {
    size_t matching = 0;
    for (size_t rule = 0; rule < sidluqethe_rule_count(policy->memory); rule++) {
        const uint8_t match =
            sidluqethe_match(policy->text, policy->length, policy->memory, SIDLUQETHE_MEMORY_WORDS, bytes(request->profile),
                             strlen(request->profile), bytes(request->path), strlen(request->path), request->owner, rule);
        if (match == SIDLUQETHE_NO_MATCH) continue;
        if (matching++ == 0) puts("rules");
        put_rule(policy, rule, match);
    }
    if (matching == 0) puts("no rule matches");
}

static void put_answer(const sidluqethe_answer *answer, uint8_t asked) {
    put_set("asked", asked);
    put_set("granted", answer->granted);
    put_set("refused", asked & ~(unsigned)answer->granted);
    put_set("recorded", answer->recorded);
    printf("execute   %s", sidluqethe_execute_name(answer->execute));
    if (answer->target_length != 0) printf(" -> ");
    put(stdout, answer->target, answer->target_length);
    puts("");
}

static int ask(const struct policy *policy, const struct request *request) {
    sidluqethe_answer answer;
    sidluqethe_ask(policy->text, policy->length, policy->memory, SIDLUQETHE_MEMORY_WORDS, bytes(request->profile),
                   strlen(request->profile), bytes(request->path), strlen(request->path), request->asked, request->owner, &answer,
                   sizeof answer);
    if (answer.refusal != 0) return tell(policy, &answer);
    put_answer(&answer, request->asked);
    put_rules(policy, request);
    if (fflush(stdout) != 0 || ferror(stdout)) {
        fprintf(stderr, "ask: the answer could not be written\n");
        return NO_FILE;
    }
    return sidluqethe_grants(&answer, request->asked) ? GRANTED : REFUSED;
}

int main(int count, char **words) {
    static struct policy policy;
    sidluqethe_answer answer;
    struct request request;
    const int owner = count == 6 && strcmp(words[5], "--owner") == 0;
    /* A patch is taken as it comes. With a new minor version the words of memory may change, which the header's readers go by. */
    if (sidluqethe_version() / 100 != SIDLUQETHE_VERSION / 100) {
        fprintf(stderr, "ask: the library is of version %lu, the header of %d\n", (unsigned long)sidluqethe_version(),
                SIDLUQETHE_VERSION);
        return BAD_CALL;
    }
    if ((count != 5 && !owner) || set_of(words[4]) == 0) {
        fprintf(stderr, "call: ask FILE PROFILE PATH PERMS [--owner]\nPERMS: letters of r w a m l k x\n");
        return BAD_CALL;
    }
    request.profile = words[2];
    request.path = words[3];
    request.asked = set_of(words[4]);
    request.owner = (uint8_t)owner;
    if (load(&policy, words[1]) != 0) return NO_FILE;
    sidluqethe_read(policy.text, policy.length, policy.memory, SIDLUQETHE_MEMORY_WORDS, &answer, sizeof answer);
    if (answer.refusal != 0) return tell(&policy, &answer);
    return ask(&policy, &request);
}
