/* What the arguments ask for. Options stand anywhere before `--`, also before the job's word; `--name=value`
   is the same as `--name value`. */
#include <string.h>
#include "host.h"

/* One line to standard error: what is wrong, and the word that it is about; answers FAILED. */
static int usage(const char *subject, const char *wrong, const char *word) {
    fprintf(stderr, "desk: %s%s", subject, wrong);
    print_word(stderr, word);
    fputs("; desk --help says more\n", stderr);
    return FAILED;
}

/* ─── what there is ─── */

static const char *const JOBS[] = {[CHECK] = "check", [WRITE] = "write", [LIST] = "list", [SHOW] = "show"};
enum { JOBS_COUNT = sizeof JOBS / sizeof *JOBS };

#define FOR(job) (1U << (job))
#define ANY_JOB (FOR(NO_JOB) | FOR(CHECK) | FOR(WRITE) | FOR(LIST) | FOR(SHOW))

/* An option, the jobs that it is for, and whether a value follows it. */
static const struct {
    const char *name;
    unsigned jobs;
    int takes_value;
} OPTION[OPTIONS] = {
    [HELP] = {"--help", ANY_JOB, 0},
    [SHORT_HELP] = {"-h", ANY_JOB, 0},
    [VERSION] = {"--version", ANY_JOB, 0},
    [EXPLAIN] = {"--explain", FOR(CHECK) | FOR(WRITE), 0},
    [JSON] = {"--json", FOR(CHECK) | FOR(WRITE), 0},
    [QUIET] = {"--quiet", FOR(CHECK) | FOR(WRITE) | FOR(LIST), 0},
    [DECLARED] = {"--declared", FOR(CHECK), 0},
    [CEILING] = {"--ceiling", FOR(WRITE), 1},
    [OUTPUT] = {"-o", FOR(WRITE) | FOR(LIST) | FOR(SHOW), 1},
    [CREDITOR_OPTION] = {"--message-id", FOR(LIST), 1},
    [CREDITOR_OPTION + 1] = {"--creation-time", FOR(LIST), 1},
    [CREDITOR_OPTION + 2] = {"--initiating-name", FOR(LIST), 1},
    [CREDITOR_OPTION + 3] = {"--creditor-name", FOR(LIST), 1},
    [CREDITOR_OPTION + 4] = {"--creditor-iban", FOR(LIST), 1},
    [CREDITOR_OPTION + 5] = {"--creditor-bic", FOR(LIST), 1},
    [CREDITOR_OPTION + 6] = {"--creditor-identifier", FOR(LIST), 1},
};

const char *option_name(size_t option) { return OPTION[option].name; }

/* ─── one word ─── */

static int read_job(const char *word, struct request *request) {
    for (size_t i = CHECK; i < JOBS_COUNT; i++)
        if (strcmp(word, JOBS[i]) == 0) request->job = (enum job)i;
    return request->job == NO_JOB ? usage("say check, write, list or show", ", not ", word) : DONE;
}

static int read_name(const char *word, struct request *request) {
    for (size_t i = 0; i < request->inputs_count; i++)
        if (strcmp(word, "-") == 0 && strcmp(request->inputs[i], "-") == 0)
            return usage("-", " stands twice: there is one standard input", "");
    request->inputs[request->inputs_count++] = word;
    return DONE;
}

/* The option that a word is, or begins with before `=`; OPTIONS where there is none. */
static size_t option_of(const char *word, const char **value) {
    size_t length = strcspn(word, "="), i = 0;
    while (i < OPTIONS && (strlen(OPTION[i].name) != length || memcmp(OPTION[i].name, word, length) != 0))
        i++;
    *value = word[length] ? word + length + 1 : 0;
    return i;
}

/* An option, and its value where it takes one; `more` is the word after it, or null. Answers whether that
   word was taken. */
static int read_option(const char *word, const char *more, struct request *request, int *taken) {
    const char *value;
    size_t i = option_of(word, &value);
    *taken = 0;
    if (i == OPTIONS) return usage("", "there is no option ", word);
    if (request->option[i] && OPTION[i].takes_value) return usage(OPTION[i].name, " stands twice", "");
    if (value && !OPTION[i].takes_value) return usage(OPTION[i].name, " takes no value", "");
    if (!value && OPTION[i].takes_value) {
        if (!more) return usage(OPTION[i].name, " needs a value after it", "");
        value = more;
        *taken = 1;
    }
    request->option[i] = value ? value : "";
    return DONE;
}

/* ─── all of them together ─── */

/* A whole number from 1 to the highest ceiling. */
static int read_ceiling(const char *word, uint64_t *ceiling) {
    size_t i = 0;
    *ceiling = 0;
    while (word[i] >= '0' && word[i] <= '9' && *ceiling <= DESK_CEILING)
        *ceiling = *ceiling * 10 + (uint64_t)(word[i++] - '0');
    if (i > 0 && !word[i] && *ceiling >= 1 && *ceiling <= DESK_CEILING) return DONE;
    return usage("--ceiling", " takes a whole number from 1 to 500, not ", *word ? word : "an empty word");
}

static int judge(struct request *request) {
    if (request->job == NO_JOB) return usage("say check, write, list or show", "", "");
    const char *job = JOBS[request->job], *output = request->option[OUTPUT];
    for (size_t i = 0; i < OPTIONS; i++)
        if (request->option[i] && !(OPTION[i].jobs & FOR(request->job)))
            return usage(job, " has no option ", OPTION[i].name);
    if (request->option[QUIET] && (request->option[EXPLAIN] || request->option[JSON]))
        return usage("--quiet", " goes with neither --explain nor --json", "");
    if (request->inputs_count == 0) return usage(job, " needs a file", "");
    if (request->inputs_count > 1 && request->job != CHECK)
        return usage(job, " takes one file at a time; there is also ", request->inputs[1]);
    if (output && strcmp(output, "-") == 0)
        return usage("-o", " takes a file; without it standard output is written", "");
    if (request->job != WRITE) return DONE;
    if (!request->option[CEILING]) return usage(job, " needs --ceiling N", "");
    return read_ceiling(request->option[CEILING], &request->ceiling);
}

int read_request(int argc, char **argv, struct request *request) {
    int options = 1, taken, status = DONE;
    for (int i = 1; i < argc && status == DONE; i++) {
        const char *word = argv[i];
        if (options && strcmp(word, "--") == 0) {
            options = 0;
        } else if (options && word[0] == '-' && word[1]) {
            status = read_option(word, i + 1 < argc ? argv[i + 1] : 0, request, &taken);
            i += taken;
        } else {
            status = request->job == NO_JOB ? read_job(word, request) : read_name(word, request);
        }
    }
    if (status != DONE || request->option[HELP] || request->option[SHORT_HELP] || request->option[VERSION])
        return status;
    return judge(request);
}
