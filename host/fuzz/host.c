/* Fuzzing of verify.c over a library that stands in for the proved one: what it answers call by call is the input's, so that the host
   meets each status, odd names, and texts that the header doesn't allow.

   An input is calls with DIVIDER between them: an octet for the status, one for the manner, and the texts `out` and `kept` with SPLIT
   between them. Where the manner is even, each line of the texts is made a line of the header's grammar: of `out` a question for the
   file of this name, or behind an `a` the rest of an `accept` line; of `kept` a file with a name and bytes, divided by a colon.

   Always: what the host hands in is what was handed in before and the answers, each question's once; a file has the bytes of the
   repository's, and a row is good only where answer.c says so; buffers are as long as they are said to be; nothing is written outside
   the store, and nothing in it but what is to be kept; texts outside the grammar end with 70, and nothing is kept then. */
#define main host_main
#include "../verify.c"
#undef main
#include <ftw.h>

#define DIVIDER "\xff\xfe|\xff"
#define SPLIT "\xff\xfe:\xff"
enum { MOST_CALLS = 60 };

static char *top, *store, *repository;
static const char *const names[] = {"1.root.json", "timestamp.json", "targets/a", "targets/b c", "long.json"};

static void fail(const char *why) { fprintf(stderr, "fuzz: %s\n", why); abort(); }

static char *under(const char *name) { return joined(top, "/", name, strlen(name)); }

static void write_file(const char *path, const char *text, size_t length) {
    FILE *file = fopen(path, "wb");
    if (!file || fwrite(text, 1, length, file) != length || fclose(file)) { perror(path); exit(2); }
}

static int remove_one(const char *path, const struct stat *st, int sort, struct FTW *ftw) {
    (void)st, (void)sort, (void)ftw;
    return remove(path);
}

static void remove_all(void) { nftw(top, remove_one, 16, FTW_DEPTH | FTW_PHYS); }

int LLVMFuzzerInitialize(int *argc, char ***argv) {
    (void)argc, (void)argv;
    static char made[] = "/dev/shm/fuzz-host-XXXXXX", other[] = "/tmp/fuzz-host-XXXXXX";
    top = mkdtemp(made);
    if (!top) top = mkdtemp(other);
    if (!top) { fprintf(stderr, "fuzz: no folder can be made\n"); exit(2); }
    atexit(remove_all);
    store = under("store"), repository = under("repository");
    mkdir(repository, 0777);
    char *path = under("repository/targets"), *pipe = under("repository/pipe"), *link = under("repository/loop");
    mkdir(path, 0777);
    if (mkfifo(pipe, 0666) || symlink("loop", link)) exit(2);
    free(path), free(pipe), free(link);
    for (size_t i = 0; i < sizeof names / sizeof *names; i++) {
        path = joined(repository, "/", names[i], strlen(names[i]));
        write_file(path, names[i], strlen(names[i]));
        free(path);
    }
    path = under("beside");
    write_file(path, "beside", 6);
    free(path);
    return 0;
}

/* ---- the library that stands in */

static const uint8_t *rest;
static size_t rest_length;
static struct text asked, out_text, kept_text;
static uint32_t given;      /* the status of the call */
static bool in_grammar, pending;
static int calls;
static size_t files_before, absents_before, rows_before, questions;

static void append_text(struct text *to, const char *text) { append(to, text, strlen(text)); }

static void append_field(struct text *to, const uint8_t *at, size_t length) {
    static const char letters[] = "ABCDEFGHIJKLMNOPQRSTUVWXYZabcdefghijklmnopqrstuvwxyz0123456789+/";
    if (!length) append_text(to, "-");
    for (size_t i = 0; i < length; i += 3) {
        uint32_t bits = (uint32_t)at[i] << 16 | (i + 1 < length ? at[i + 1] : 0u) << 8 | (i + 2 < length ? at[i + 2] : 0u);
        char four[4] = {letters[bits >> 18], letters[bits >> 12 & 63], i + 1 < length ? letters[bits >> 6 & 63] : '=', i + 2 < length ? letters[bits & 63] : '='};
        append(to, four, 4);
    }
}

static bool was_asked(const char *line, size_t length) {
    for (const char *at = asked.at, *end = at + asked.length, *next; at < end; at = next + 1) {
        next = memchr(at, '\n', end - at);
        if ((size_t)(next - at) == length && !memcmp(at, line, length)) return true;
    }
    return false;
}

/* A line of the grammar of each text. (What was asked isn't asked again: the header promises that.) */
static void append_line(struct text *to, const uint8_t *at, size_t length, bool keeps) {
    const uint8_t *colon = keeps ? memchr(at, ':', length) : NULL;
    struct text line = {0};
    if (keeps) {
        size_t name = colon ? (size_t)(colon - at) : length;
        append_text(&line, "keep ");
        append_field(&line, at, name);
        append_text(&line, " ");
        append_field(&line, at + name, length - name);
    } else if (length && *at == 'a') {
        append_text(&line, "accept ");
        append(&line, (const char *)at + 1, length - 1);
    } else {
        append_text(&line, "file ");
        append_field(&line, at, length);
        append_text(&line, length % 2 ? " 512000" : " 3");
    }
    if (keeps || !was_asked(line.at, line.length)) {
        append(to, line.at, line.length);
        append_text(to, "\n");
        if (!keeps) append(&asked, line.at, line.length), append_text(&asked, "\n"), questions++;
    }
    free(line.at);
}

static void append_lines(struct text *to, const uint8_t *at, size_t length, bool keeps) {
    for (const uint8_t *end = at + length; at < end;) {
        const uint8_t *next = memchr(at, '\n', end - at);
        append_line(to, at, (next ? next : end) - at, keeps);
        at = next ? next + 1 : end;
    }
}

/* Makes the next answer of the input. */
static void next_answer(void) {
    const uint8_t *end = rest_length ? memmem(rest, rest_length, DIVIDER, 4) : NULL;
    size_t length = end ? (size_t)(end - rest) : rest_length;
    const uint8_t *at = rest;
    rest_length -= end ? length + 4 : length;
    rest = end ? end + 4 : rest + length;
    out_text.length = kept_text.length = questions = 0;
    given = length ? at[0] % 9 : 1;
    in_grammar = length < 2 || at[1] % 2 == 0;
    if (length < 2) return;
    const uint8_t *split = memmem(at + 2, length - 2, SPLIT, 4);
    size_t first = split ? (size_t)(split - at) - 2 : length - 2;
    if (in_grammar && given == RATMANGANESE_ASKS) append_lines(&out_text, at + 2, first, false);
    else append(&out_text, (const char *)at + 2, first);
    if (in_grammar && split) append_lines(&kept_text, split + 4, length - first - 6, true);
    else if (split) append(&kept_text, (const char *)split + 4, length - first - 6);
    /* (the header: no questions are no text, and another status than 0 and 1 keeps nothing) */
    if (in_grammar && given == RATMANGANESE_ASKS && !out_text.length) given = RATMANGANESE_REFUSED;
    if (in_grammar && given > RATMANGANESE_REFUSED) kept_text.length = 0;
    if (in_grammar && given == RATMANGANESE_SHORT) given = RATMANGANESE_MEMORY;
}

static size_t lines_of(const struct ratmanganese_bytes *bytes) {
    size_t found = 0;
    for (size_t i = 0; i < bytes->length; i++) found += bytes->at[i] == '\n';
    return found;
}

/* What the host hands in: all that it did before, and an answer to each question. */
static void look_at(const struct ratmanganese_request *r) {
    size_t answered = r->repository.length + r->absent.length + lines_of(&r->good) + lines_of(&r->bad);
    if (answered != files_before + absents_before + rows_before + questions) fail("a question has no answer, or two");
    files_before = r->repository.length, absents_before = r->absent.length, rows_before = lines_of(&r->good) + lines_of(&r->bad);
    for (size_t i = 0; i < r->repository.length; i++) {
        const struct ratmanganese_file *file = &r->repository.at[i];
        size_t j = 0, most = sizeof names / sizeof *names;
        while (j < most && (strlen(names[j]) != file->name.length || memcmp(names[j], file->name.at, file->name.length))) j++;
        if (j == most) fail("a file that the repository doesn't have");
        size_t length = file->name.length % 2 ? file->name.length : 4;
        if (file->bytes.length != (length < file->name.length ? length : file->name.length) || memcmp(file->bytes.at, names[j], file->bytes.length)) fail("a file has other bytes");
    }
    for (size_t i = 0; i < r->absent.length; i++)
        for (size_t j = 0; j < sizeof names / sizeof *names; j++)
            if (strlen(names[j]) == r->absent.at[i].length && !memcmp(names[j], r->absent.at[i].at, r->absent.at[i].length)) fail("a file that is there is handed in as absent");
    for (const char *at = (const char *)r->good.at, *end = at + r->good.length, *next; at < end; at = next + 1) {
        next = memchr(at, '\n', end - at);
        if (!is_good(at, next - at)) fail("a row that isn't good");
    }
}

uint32_t ratmanganese_verify(const struct ratmanganese_request *r, uint8_t *out, size_t out_length, uint8_t *kept, size_t kept_length, struct ratmanganese_lengths *lengths) {
    if (!pending) {
        if (++calls > MOST_CALLS + 2) fail("called without end");
        look_at(r);
        next_answer();
    }
    *lengths = (struct ratmanganese_lengths){out_text.length, kept_text.length};
    pending = out_text.length > out_length || kept_text.length > kept_length;
    if (pending) return RATMANGANESE_SHORT;
    if (out_text.length) memcpy(out, out_text.at, out_text.length);
    if (kept_text.length) memcpy(kept, kept_text.at, kept_text.length);
    return given;
}

/* ---- what has to hold of the folders */

static size_t found_files;

/* A file of the store: one that is to be kept, and none beside its place. */
static int look_at_file(const char *path, const struct stat *st, int sort, struct FTW *ftw) {
    (void)st, (void)ftw;
    size_t front = strlen(store);
    if (sort == FTW_D) return 0;
    if (sort != FTW_F) fail("no file and no folder is in the store");
    struct text line = {0};
    append_text(&line, "keep ");
    append_field(&line, (const uint8_t *)path + front + 1, strlen(path + front + 1));
    append_text(&line, " ");
    if (!kept_text.length || !memmem(kept_text.at, kept_text.length, line.at, line.length)) fail("a file is in the store that isn't to be kept");
    free(line.at);
    found_files++;
    return 0;
}

/* Whether the last line of this name has these bytes, as the store has them. */
static void look_at_kept(void) {
    size_t lines = 0;
    for (const char *at = kept_text.at, *end = at + kept_text.length, *next; at < end; at = next + 1, lines++) {
        struct ratmanganese_file file;
        struct ratmanganese_bytes bytes;
        next = memchr(at, '\n', end - at);
        if (!read_kept(at, next - at, &file)) fail("a line that isn't one of the grammar was kept");
        char *path = joined(store, "/", (const char *)file.name.at, file.name.length);
        if (!read_file(path, INT64_MAX / 2, true, &bytes)) fail("a file isn't kept");
        /* (a later line of the same name has the last word) */
        const char *word = memchr(at + 5, ' ', next - at - 5);
        bool is_last = !memmem(next, end - next, at, word + 1 - at);
        if (is_last && (bytes.length != file.bytes.length || memcmp(bytes.at, file.bytes.at, bytes.length))) fail("a file is kept with other bytes");
        free(path), free((void *)bytes.at), free((void *)file.name.at), free((void *)file.bytes.at);
    }
    if (found_files > lines) fail("more is kept than is to be");
}

static int count_entries(const char *path) {
    DIR *dir = opendir(path);
    int found = 0;
    while (dir && readdir(dir)) found++;
    if (dir) closedir(dir);
    return found;
}

static bool is_text(const uint8_t *at, size_t length) { return !length || at[length - 1] == '\n'; }

int LLVMFuzzerTestOneInput(const uint8_t *data, size_t size) {
    struct world w = {.repository = repository, .out_room = 16, .kept_room = 16};
    rest = data, rest_length = size;
    /* (so that no pointer is null) */
    for (struct text *texts[] = {&asked, &out_text, &kept_text}, **text = texts; text < texts + 3; text++) append(*text, "", 1), (*text)->length = 0;
    files_before = absents_before = rows_before = questions = 0;
    pending = false, calls = 0, found_files = 0;
    w.request.root = w.request.bundle = w.request.artifact = w.request.policy = (struct ratmanganese_bytes){RATMANGANESE_NOTHING, 0};
    w.out = grown(NULL, w.out_room), w.kept = grown(NULL, w.kept_room);
    uint32_t status = verify(&w);
    if (status != given && status != UNKNOWN && status != RATMANGANESE_INPUT) fail("another status than the library's");
    if (status == UNKNOWN && w.lengths.out + w.lengths.kept) fail("a text that isn't understood is handed on");
    if (status == UNKNOWN && in_grammar && is_text((uint8_t *)out_text.at, out_text.length)) fail("the grammar isn't understood");
    if (status == RATMANGANESE_ACCEPTED || status == RATMANGANESE_REFUSED) {
        uint32_t end = keep(&w, store);
        if (end == UNKNOWN && found_files) fail("something is kept of what isn't understood");
        nftw(store, look_at_file, 16, FTW_PHYS);
        if (end == UNKNOWN && found_files) fail("something is kept of what isn't understood");
        if (!end) look_at_kept();
    }
    nftw(store, remove_one, 16, FTW_DEPTH | FTW_PHYS);
    /* `.`, `..`, the repository and the file beside */
    if (count_entries(top) != 4 || count_entries(repository) != 8) fail("something stands outside the store");
    forget(&w, 0);
    free(w.files.at), free(w.absent), free(w.good.at), free(w.bad.at), free(w.out), free(w.kept);
    return 0;
}
