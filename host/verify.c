/* A host: hands files and answers to ratmanganese_verify until it has no more questions. Nothing here is proved: what a host owes
   stands in ratmanganese.h.

     verify --root=FILE --repository=DIR --store=DIR --bundle=FILE --artifact=FILE --policy=FILE [--provider=FILE]
         [--now=YYYY-MM-DDTHH:MM:SSZ] [--all] [--tell] [--repeat=N] [--fail-each]
     verify --answer <QUESTIONS

   --provider  rows that hold, to begin with
   --all       hands in the whole repository at once; else only the files that are asked for are read
   --tell      says on standard error what each round asks
   --repeat    does all of it N times, and says the median times; without --all the files are read each time
   --fail-each refuses each of the library's requests for memory in turn (in verify-wrapped)
   --answer    alone: writes, of lines `accept ..`, those whose signatures are good

   The report or the refusal goes to standard output. The status is the call's; 2 for faulty words, 3 where an input or a file can't be
   read, 4 where the store or standard output can't be written, 70 where the questions don't end or what the library says isn't
   understood. */
#define _GNU_SOURCE
#include "answer.h"
#include "ratmanganese.h"
#include <dirent.h>
#include <errno.h>
#include <fcntl.h>
#include <stdio.h>
#include <stdlib.h>
#include <string.h>
#include <sys/mman.h>
#include <sys/resource.h>
#include <sys/stat.h>
#include <time.h>
#include <unistd.h>

/* ---- memory that is refused */

static bool counting;
static long requests, fail_at = -1;
static size_t most; /* that the library held, where malloc is wrapped */
#ifdef WRAPPED
#include <malloc.h>
static size_t held;
void *__real_malloc(size_t);
void *__real_realloc(void *, size_t);
void *__real_calloc(size_t, size_t);
void __real_free(void *);
static bool refused(void) { return counting && requests++ == fail_at; }
static void *counted(void *p) {
    if (counting && p) { held += malloc_usable_size(p); if (held > most) most = held; }
    return p;
}
void *__wrap_malloc(size_t n) { return refused() ? NULL : counted(__real_malloc(n)); }
void *__wrap_calloc(size_t n, size_t m) { return refused() ? NULL : counted(__real_calloc(n, m)); }
void *__wrap_realloc(void *p, size_t n) {
    if (refused()) return NULL;
    if (counting && p) held -= malloc_usable_size(p);
    return counted(__real_realloc(p, n));
}
void __wrap_free(void *p) {
    if (counting && p) held -= malloc_usable_size(p);
    __real_free(p);
}
#endif

/* ---- files */

static void *grown(void *at, size_t size) {
    void *p = realloc(at, size ? size : 1);
    if (!p) { fprintf(stderr, "verify: out of memory\n"); exit(RATMANGANESE_MEMORY); }
    return p;
}

static struct ratmanganese_bytes copy_of(const void *at, size_t length) {
    uint8_t *p = grown(NULL, length);
    memcpy(p, at, length);
    return (struct ratmanganese_bytes){p, length};
}

/* At most `max` bytes of a file and one more; where `regular`, of no other sort of file. False, with errno, where it can't be read. */
static bool read_file(const char *path, uint64_t max, bool regular, struct ratmanganese_bytes *out) {
    int fd = open(path, O_RDONLY | O_CLOEXEC | (regular ? O_NONBLOCK : 0));
    struct stat st;
    if (fd < 0) return false;
    if (regular && (fstat(fd, &st) || !S_ISREG(st.st_mode))) { close(fd); errno = EINVAL; return false; }
    if (max > INT64_MAX / 2) max = INT64_MAX / 2;
    size_t length = 0, room = 0;
    uint8_t *at = NULL;
    for (;;) {
        if (length == room) at = grown(at, room = room ? 2 * room : 65536);
        size_t want = room - length;
        if (length + want > max + 1) want = max + 1 - length;
        ssize_t n = want ? read(fd, at + length, want) : 0;
        if (n < 0) { int e = errno; free(at); close(fd); errno = e; return false; }
        if (!n) break;
        length += n;
    }
    close(fd);
    *out = (struct ratmanganese_bytes){at, length};
    return true;
}

/* A memory map of a file. False where it can't be read. (Nobody may write to the file meanwhile.) */
static bool map_file(const char *path, struct ratmanganese_bytes *out) {
    int fd = open(path, O_RDONLY | O_CLOEXEC | O_NONBLOCK);
    struct stat st;
    if (fd < 0) return false;
    bool done = !fstat(fd, &st) && S_ISREG(st.st_mode);
    *out = (struct ratmanganese_bytes){RATMANGANESE_NOTHING, 0};
    if (done && st.st_size) {
        void *at = mmap(NULL, st.st_size, PROT_READ, MAP_PRIVATE, fd, 0);
        if (at == MAP_FAILED) done = false;
        else *out = (struct ratmanganese_bytes){at, st.st_size};
    }
    close(fd);
    return done;
}

struct list { struct ratmanganese_file *at; size_t length; };

static void add(struct list *files, struct ratmanganese_bytes name, struct ratmanganese_bytes bytes) {
    files->at = grown(files->at, (files->length + 1) * sizeof *files->at);
    files->at[files->length++] = (struct ratmanganese_file){name, bytes};
}

/* A folder, what stands between, and a name below it. */
static char *joined(const char *top, const char *between, const char *below, size_t length) {
    size_t front = strlen(top), middle = strlen(between);
    char *path = grown(NULL, front + middle + length + 1);
    memcpy(path, top, front);
    memcpy(path + front, between, middle);
    memcpy(path + front + middle, below, length);
    path[front + middle + length] = 0;
    return path;
}

/* Whether a name leads to a place below a folder. */
static bool is_below(const struct ratmanganese_bytes *name) {
    const char *at = (const char *)name->at, *end = at + name->length;
    if (name->length > INT32_MAX || memchr(at, 0, name->length)) return false;
    for (;;) {
        const char *next = memchr(at, '/', end - at);
        size_t length = (next ? next : end) - at;
        if (!length || (length == 1 && *at == '.') || (length == 2 && !memcmp(at, "..", 2))) return false;
        if (!next) return true;
        at = next + 1;
    }
}

/* What stands in the name of a file that isn't yet in its place. */
#define BESIDE ".new~"

/* All files of a folder, by their names below it. False, with a line on standard error, where one can't be read. */
static bool add_folder(struct list *files, const char *top, const char *below) {
    char *path = joined(top, "/", below, strlen(below));
    DIR *dir = opendir(path);
    bool done = dir;
    if (!dir) fprintf(stderr, "verify: %s: %s\n", path, strerror(errno));
    free(path);
    for (struct dirent *entry; done && (errno = 0, entry = readdir(dir));) {
        if (!strcmp(entry->d_name, ".") || !strcmp(entry->d_name, "..")) continue;
        char *name = joined(below, *below ? "/" : "", entry->d_name, strlen(entry->d_name));
        path = joined(top, "/", name, strlen(name));
        struct stat st;
        struct ratmanganese_bytes bytes;
        if (!stat(path, &st) && S_ISDIR(st.st_mode)) done = add_folder(files, top, name);
        else if (read_file(path, 67108864, true, &bytes)) add(files, copy_of(name, strlen(name)), bytes);
        /* (another process has put it in its place) */
        else if (errno != ENOENT || !strstr(entry->d_name, BESIDE)) done = false, fprintf(stderr, "verify: %s: %s\n", path, strerror(errno));
        free(name);
        free(path);
    }
    if (done && errno) done = false, fprintf(stderr, "verify: %s/%s: %s\n", top, below, strerror(errno));
    if (dir) closedir(dir);
    return done;
}

/* Flushes a folder, so that a renaming in it lasts. */
static bool flush_folder(const char *path) {
    int fd = open(path, O_RDONLY | O_DIRECTORY | O_CLOEXEC);
    bool done = fd >= 0 && !fsync(fd);
    if (fd >= 0) close(fd);
    return done;
}

/* Writes a file of the store: beside its place, flushed, and renamed. */
static bool write_kept(const char *top, const struct ratmanganese_bytes *name, const struct ratmanganese_bytes *bytes) {
    if (!is_below(name)) return false;
    char process[32];
    snprintf(process, sizeof process, BESIDE "%ld", (long)getpid());
    char *path = joined(top, "/", (const char *)name->at, name->length), *beside = joined(path, "", process, strlen(process));
    for (char *slash = strchr(path + 1, '/'); slash; slash = strchr(slash + 1, '/')) { *slash = 0; mkdir(path, 0777); *slash = '/'; }
    /* (what an ended process left goes, and no link is followed) */
    unlink(beside);
    int fd = open(beside, O_WRONLY | O_CREAT | O_EXCL | O_CLOEXEC, 0666);
    FILE *file = fd < 0 ? NULL : fdopen(fd, "wb");
    if (fd >= 0 && !file) close(fd);
    bool done = file && fwrite(bytes->at, 1, bytes->length, file) == bytes->length && !fflush(file) && !fsync(fileno(file));
    done = file && !fclose(file) && done && !rename(beside, path);
    if (!done) unlink(beside);
    *strrchr(path, '/') = 0;
    done = done && flush_folder(path);
    free(path);
    free(beside);
    return done;
}

/* ---- the loop */

struct text { char *at; size_t length, room; };

static void append(struct text *text, const char *at, size_t length) {
    if (!length) return;
    if (text->length + length > text->room) text->at = grown(text->at, text->room = 2 * text->room + length + 4096);
    memcpy(text->at + text->length, at, length);
    text->length += length;
}

enum { MOST_ROUNDS = 1000, UNKNOWN = 70 };

struct world {
    const char *repository;
    struct ratmanganese_request request;
    struct list files, store;
    struct ratmanganese_bytes *absent;
    size_t absents;
    struct text good, bad;
    uint8_t *out, *kept;
    size_t out_room, kept_room;
    struct ratmanganese_lengths lengths;
    bool tell;
    int rounds, rows;
    double library, openssl, round[MOST_ROUNDS];
};

static double now_us(void) {
    struct timespec t;
    clock_gettime(CLOCK_MONOTONIC, &t);
    return t.tv_sec * 1e6 + t.tv_nsec / 1e3;
}

/* A file of the repository, or that it isn't there. False where it can't be read. */
static bool fetch(struct world *w, struct ratmanganese_bytes name, uint64_t max) {
    struct ratmanganese_bytes bytes;
    bool below = is_below(&name);
    char *path = joined(w->repository, "/", (const char *)name.at, below ? name.length : 0);
    if (below && read_file(path, max, true, &bytes)) add(&w->files, name, bytes);
    else if (!below || errno == ENOENT || errno == ENOTDIR || errno == ENAMETOOLONG) {
        w->absent = grown(w->absent, (w->absents + 1) * sizeof *w->absent);
        w->absent[w->absents++] = name;
    } else {
        fprintf(stderr, "verify: %s: %s\n", path, strerror(errno));
        free(path);
        free((void *)name.at);
        return false;
    }
    free(path);
    return true;
}

/* Ends with a status of the host's own, and without a text. */
static uint32_t failed(struct world *w, uint32_t status) {
    w->lengths = (struct ratmanganese_lengths){0};
    return status;
}

static uint32_t call(struct world *w) {
    struct ratmanganese_request *r = &w->request;
    for (;;) {
        r->repository = (struct ratmanganese_files){w->files.length ? w->files.at : RATMANGANESE_NOTHING, w->files.length};
        r->absent = (struct ratmanganese_names){w->absents ? w->absent : RATMANGANESE_NOTHING, w->absents};
        r->store = (struct ratmanganese_files){w->store.length ? w->store.at : RATMANGANESE_NOTHING, w->store.length};
        r->good = (struct ratmanganese_bytes){w->good.length ? (const void *)w->good.at : RATMANGANESE_NOTHING, w->good.length};
        r->bad = (struct ratmanganese_bytes){w->bad.length ? (const void *)w->bad.at : RATMANGANESE_NOTHING, w->bad.length};
        double t = now_us();
        counting = true;
        uint32_t status = ratmanganese_verify(r, w->out, w->out_room, w->kept, w->kept_room, &w->lengths);
        counting = false;
        w->library += w->round[w->rounds] = now_us() - t;
        bool is_short = w->lengths.out > w->out_room || w->lengths.kept > w->kept_room;
        if (is_short != (status == RATMANGANESE_SHORT)) return failed(w, UNKNOWN);
        if (!is_short) return status;
        if (w->lengths.out > w->out_room) w->out = grown(w->out, w->out_room = w->lengths.out);
        if (w->lengths.kept > w->kept_room) w->kept = grown(w->kept, w->kept_room = w->lengths.kept);
    }
}

/* Whether what stands here is lines, each of them ended. */
static bool are_lines(const uint8_t *at, size_t length) { return !length || at[length - 1] == '\n'; }

/* Answers the line of a file that is asked for: `file NAME MAX`. Gives 0, or the status of the end. */
static uint32_t answer_file(struct world *w, const char *line, size_t length) {
    const char *blank = length > 5 ? memchr(line + 5, ' ', length - 5) : NULL;
    size_t digits = blank ? length - (blank + 1 - line) : 0;
    struct ratmanganese_bytes name = {NULL, 0};
    if (digits >= 1 && digits <= 19 && strspn(blank + 1, "0123456789") == digits) name.at = field_of(line + 5, blank - line - 5, &name.length);
    if (!name.at) return UNKNOWN;
    return fetch(w, name, strtoull(blank + 1, NULL, 10)) ? 0 : RATMANGANESE_INPUT;
}

static uint32_t verify(struct world *w) {
    w->rounds = w->rows = 0;
    w->library = w->openssl = 0;
    for (;;) {
        uint32_t status = call(w);
        w->rounds++;
        if (status != RATMANGANESE_ASKS) return status;
        if (w->rounds == MOST_ROUNDS || !w->lengths.out || !are_lines(w->out, w->lengths.out)) return failed(w, UNKNOWN);
        for (const char *at = (char *)w->out, *end = at + w->lengths.out, *next; at < end; at = next + 1) {
            next = memchr(at, '\n', end - at);
            if (w->tell) fprintf(stderr, "round %d: %.*s\n", w->rounds, (int)(next - at > 120 ? 120 : next - at), at);
            if (next - at < 7 || memcmp(at, "accept ", 7)) {
                uint32_t end = next - at > 5 && !memcmp(at, "file ", 5) ? answer_file(w, at, next - at) : UNKNOWN;
                if (end) return failed(w, end);
                continue;
            }
            double t = now_us();
            bool holds = is_good(at, next - at);
            w->openssl += now_us() - t;
            w->rows++;
            append(holds ? &w->good : &w->bad, at, next + 1 - at);
        }
    }
}

/* Reads the line of a file that the store is to keep: `keep NAME BYTES`. */
static bool read_kept(const char *line, size_t length, struct ratmanganese_file *file) {
    const char *blank = length > 5 && !memcmp(line, "keep ", 5) ? memchr(line + 5, ' ', length - 5) : NULL;
    *file = (struct ratmanganese_file){{NULL, 0}, {NULL, 0}};
    if (!blank) return false;
    file->name.at = field_of(line + 5, blank - line - 5, &file->name.length);
    file->bytes.at = field_of(blank + 1, length - (blank + 1 - line), &file->bytes.length);
    return file->name.at && file->bytes.at && is_below(&file->name);
}

/* Reads all lines, and then writes each file of them. Gives 0, or the status of the end. */
static uint32_t keep(const struct world *w, const char *store) {
    if (!are_lines(w->kept, w->lengths.kept)) return UNKNOWN;
    uint32_t end = 0;
    for (int writes = 0; writes < 2 && !end; writes++)
        for (const char *at = (char *)w->kept, *last = at + w->lengths.kept, *next; at < last; at = next + 1) {
            struct ratmanganese_file file;
            next = memchr(at, '\n', last - at);
            if (!read_kept(at, next - at, &file)) end = UNKNOWN;
            else if (writes && !write_kept(store, &file.name, &file.bytes)) end = 4;
            free((void *)file.name.at);
            free((void *)file.bytes.at);
        }
    return end;
}

/* What was answered; the files that were asked for too. */
static void forget(struct world *w, size_t provided) {
    w->good.length = provided;
    w->bad.length = 0;
    if (w->request.whole) return;
    for (size_t i = 0; i < w->files.length; i++) free((void *)w->files.at[i].name.at), free((void *)w->files.at[i].bytes.at);
    for (size_t i = 0; i < w->absents; i++) free((void *)w->absent[i].at);
    w->files.length = w->absents = 0;
}

static int by_value(const void *a, const void *b) { return (*(double *)a > *(double *)b) - (*(double *)a < *(double *)b); }
static double median(double *at, size_t n) { qsort(at, n, sizeof *at, by_value); return at[n / 2]; }

static const char *value(int argc, char **argv, const char *name) {
    size_t n = strlen(name);
    for (int i = 1; i < argc; i++)
        if (!strncmp(argv[i], "--", 2) && !strncmp(argv[i] + 2, name, n)) {
            if (argv[i][2 + n] == '=') return argv[i] + 3 + n;
            if (!argv[i][2 + n]) return "";
        }
    return NULL;
}

/* Whether each word is one that the host has, stands once, and has a value where it needs one and else none. */
static bool are_known(int argc, char **argv) {
    static const char *const names[] = {
        "root", "repository", "store", "bundle", "artifact", "policy", "provider", "now", "repeat", "all", "tell", "fail-each",
    };
    enum { VALUED = 9, NAMES = sizeof names / sizeof *names };
    bool seen[NAMES] = {false};
    for (int i = 1; i < argc; i++) {
        size_t length = strcspn(argv[i], "="), found = 0;
        if (strncmp(argv[i], "--", 2)) return false;
        while (found < NAMES && (strlen(names[found]) + 2 != length || memcmp(argv[i] + 2, names[found], length - 2))) found++;
        if (found == NAMES || seen[found] || (found < VALUED ? !argv[i][length] || !argv[i][length + 1] : argv[i][length] != 0)) return false;
        seen[found] = true;
    }
    return true;
}

/* The seconds since the start of 1970 of an instant YYYY-MM-DDTHH:MM:SSZ, in its only spelling. */
static bool read_instant(const char *text, int64_t *seconds) {
    struct tm tm = {0};
    char again[96];
    const char *rest = strptime(text, "%Y-%m-%dT%H:%M:%SZ", &tm);
    if (!rest || *rest) return false;
    time_t found = timegm(&tm);
    *seconds = found;
    if (!gmtime_r(&found, &tm)) return false;
    snprintf(again, sizeof again, "%04d-%02d-%02dT%02d:%02d:%02dZ", tm.tm_year + 1900, tm.tm_mon + 1, tm.tm_mday, tm.tm_hour, tm.tm_min, tm.tm_sec);
    return !strcmp(again, text);
}

static struct ratmanganese_bytes input(int argc, char **argv, const char *name, uint64_t max) {
    const char *path = value(argc, argv, name);
    struct ratmanganese_bytes bytes;
    if (!path) { printf("usage\n"); exit(RATMANGANESE_USAGE); }
    if (!read_file(path, max, false, &bytes)) { printf("input %s\n", name); exit(RATMANGANESE_INPUT); }
    return bytes;
}

/* Writes, of the lines of standard input, those whose signatures are good. */
static int answer(void) {
    char *line = NULL;
    size_t room = 0;
    for (ssize_t length; (length = getline(&line, &room, stdin)) >= 0;)
        if (length && line[length - 1] == '\n' && is_good(line, length - 1)) fwrite(line, 1, length, stdout);
    free(line);
    return ferror(stdin) ? RATMANGANESE_INPUT : ferror(stdout) | fflush(stdout) ? 4 : 0;
}

int main(int argc, char **argv) {
    if (argc == 2 && !strcmp(argv[1], "--answer")) return answer();
    struct world w = {.repository = value(argc, argv, "repository"), .tell = value(argc, argv, "tell"), .out_room = 65536, .kept_room = 1 << 20};
    const char *store = value(argc, argv, "store"), *now = value(argc, argv, "now"), *provider = value(argc, argv, "provider"), *count = value(argc, argv, "repeat");
    long times = count ? strtol(count, NULL, 10) : 1;
    if (!w.repository || !store || times < 1 || times > 1000000 || !are_known(argc, argv)) { printf("usage\n"); exit(RATMANGANESE_USAGE); }
    w.request.policy = input(argc, argv, "policy", 65536);
    if (provider) {
        struct ratmanganese_bytes rows = input(argc, argv, "provider", 16777216);
        append(&w.good, (const char *)rows.at, rows.length);
        free((void *)rows.at);
    }
    size_t provided = w.good.length;
    w.request.root = input(argc, argv, "root", 512000);
    w.request.bundle = input(argc, argv, "bundle", 16777216);
    const char *artifact = value(argc, argv, "artifact");
    if (!artifact) { printf("usage\n"); exit(RATMANGANESE_USAGE); }
    if (!map_file(artifact, &w.request.artifact)) { fprintf(stderr, "verify: %s: it can't be mapped\n", artifact); exit(RATMANGANESE_INPUT); }
    w.request.seconds = time(NULL);
    if (now && !read_instant(now, &w.request.seconds)) { printf("usage\n"); exit(RATMANGANESE_USAGE); }
    struct stat st;
    if ((!lstat(store, &st) || errno != ENOENT) && !add_folder(&w.store, store, "")) exit(RATMANGANESE_INPUT);
    w.request.whole = value(argc, argv, "all");
    if (w.request.whole && !add_folder(&w.files, w.repository, "")) exit(RATMANGANESE_INPUT);
    w.out = grown(NULL, w.out_room);
    w.kept = grown(NULL, w.kept_room);

    if (value(argc, argv, "fail-each")) {
        for (long n = 0;; n++) {
            forget(&w, provided);
            requests = 0;
            fail_at = n;
            uint32_t status = verify(&w);
            fail_at = -1;
            if (requests <= n) {
                printf("%ld requests refused in turn, each with status 5 and no text; then status %u, %zu bytes\n", n, status, w.lengths.out);
                break;
            }
            if (status != RATMANGANESE_MEMORY || w.lengths.out || w.lengths.kept) { printf("request %ld refused, and status %u, lengths %zu and %zu\n", n, status, w.lengths.out, w.lengths.kept); return 99; }
        }
        return 0;
    }
    uint32_t status = verify(&w);
    if (count) {
        size_t n = times;
        double *whole = grown(NULL, n * sizeof(double)), *library = grown(NULL, n * sizeof(double)), *openssl = grown(NULL, n * sizeof(double));
        double (*round)[16] = grown(NULL, n * sizeof *round), *one = grown(NULL, n * sizeof(double));
        for (size_t i = 0; i < n; i++) {
            forget(&w, provided);
            double t = now_us();
            if (verify(&w) != status) return 99;
            whole[i] = now_us() - t;
            library[i] = w.library;
            openssl[i] = w.openssl;
            for (int j = 0; j < w.rounds && j < 16; j++) round[i][j] = w.round[j];
        }
        fprintf(stderr, "%zu times: median %.0f us, of it library %.0f us, OpenSSL %.0f us (%d rows); %d rounds:", n, median(whole, n), median(library, n), median(openssl, n), w.rows, w.rounds);
        for (int j = 0; j < w.rounds && j < 16; j++) {
            for (size_t i = 0; i < n; i++) one[i] = round[i][j];
            fprintf(stderr, " %.0f", median(one, n));
        }
        struct rusage use;
        getrusage(RUSAGE_SELF, &use);
        fprintf(stderr, " us; resident at most %ld KB; library held at most %zu bytes in %ld requests\n", use.ru_maxrss, most, requests);
        free(whole), free(library), free(openssl), free(round), free(one);
    }
    if (w.tell) fprintf(stderr, "%d rounds, %d rows answered, %zu files handed in, %zu absent, status %u\n", w.rounds, w.rows, w.files.length, w.absents, status);
    uint32_t end = status == RATMANGANESE_ACCEPTED || status == RATMANGANESE_REFUSED ? keep(&w, store) : 0;
    if (end == 4) fprintf(stderr, "verify: the store can't be written\n");
    if (status == UNKNOWN || end == UNKNOWN) fprintf(stderr, "verify: the questions don't end, or what the library says isn't understood\n");
    if (end) exit(end);
    if (fwrite(w.out, 1, w.lengths.out, stdout) != w.lengths.out || fflush(stdout)) exit(4);
    for (size_t i = 0; i < w.files.length; i++) free((void *)w.files.at[i].name.at), free((void *)w.files.at[i].bytes.at);
    for (size_t i = 0; i < w.store.length; i++) free((void *)w.store.at[i].name.at), free((void *)w.store.at[i].bytes.at);
    for (size_t i = 0; i < w.absents; i++) free((void *)w.absent[i].at);
    free(w.files.at), free(w.store.at), free(w.absent), free(w.good.at), free(w.bad.at), free(w.out), free(w.kept);
    free((void *)w.request.root.at), free((void *)w.request.bundle.at), free((void *)w.request.policy.at);
    if (w.request.artifact.length) munmap((void *)w.request.artifact.at, w.request.artifact.length);
    return status;
}
