// The heap of `tools/refuse_memory`, in place of the kit's. It counts the memory requests, and writes
// their number to the file descriptor in ANSWERS when the process ends. If the variable EVERY is k, it
// tries request FIRST and each k-th one after it: in one copy of the process (fork) it refuses that
// request alone, and in another all requests from it on. The process itself waits for both, and goes on
// with the request met. Each copy has its own files for standard output and standard error, which begin
// with what the process has written. SIGALRM ends a copy that takes longer than a minute. For each copy,
// ANSWERS gets a line with the request, whether all from it on were refused, the copy's status as the
// system has it, the number of refusals and the lengths of its two outputs, which follow.
typedef unsigned long size;

// The result of a request: whether it was met, and the address. If it was not met, nobody reads there.
struct answer {
    size met;
    void *at;
};

extern void *malloc(size);
extern void *realloc(void *, size);
extern void free(void *);
extern char *getenv(const char *);
extern long strtol(const char *, char **, int);
extern int dprintf(int, const char *, ...);

extern int fork(void);
extern int waitpid(int, int *, int);
extern unsigned alarm(unsigned);
extern int dup2(int, int);
extern int close(int);
extern int memfd_create(const char *, unsigned);
extern long lseek(int, long, int);
extern long sendfile(int, int, long *, size);
extern void *mmap(void *, size, int, int, int, long);
extern void abort(void);

enum { SECONDS = 60, HERE = 1, READ_WRITE = 3, SHARED_OF_NO_FILE = 33 };

static char nowhere[16];
static int answers = -1, is_copy, refuses_all;
static long requests, first, every;
// Where the process reads how many requests a copy refused.
static long *refusals;

static long number_in(const char *variable, long otherwise) {
    char *said = getenv(variable);
    return said ? strtol(said, 0, 10) : otherwise;
}

__attribute__((constructor)) static void begin(void) {
    answers = (int)number_in("ANSWERS", -1);
    first = number_in("FIRST", 1);
    every = number_in("EVERY", 0);
    refusals = mmap(0, sizeof *refusals, READ_WRITE, SHARED_OF_NO_FILE, -1, 0);
}

// Copies the start of a file.
static void copy_start(int to, int from, long length) {
    for (long at = 0; at < length;) {
        if (sendfile(to, from, &at, length - at) <= 0) abort();
    }
}

// Whether this is the copy in which the request is refused.
static int is_copy_that_refuses(int all) {
    int outputs[2], status = -1;
    long lengths[2];
    for (int i = 0; i < 2; i++) {
        outputs[i] = memfd_create("output", 0);
        copy_start(outputs[i], 1 + i, lseek(1 + i, 0, HERE));
    }
    *refusals = 0;
    int copy = fork();
    if (copy == 0) {
        is_copy = 1;
        refuses_all = all;
        dup2(outputs[0], 1);
        dup2(outputs[1], 2);
        alarm(SECONDS);
        return 1;
    }
    if (copy < 0 || waitpid(copy, &status, 0) != copy) abort();
    for (int i = 0; i < 2; i++) lengths[i] = lseek(outputs[i], 0, HERE);
    dprintf(answers, "%ld %d %d %ld %ld %ld\n", requests, all, status, *refusals, lengths[0], lengths[1]);
    for (int i = 0; i < 2; i++) {
        copy_start(answers, outputs[i], lengths[i]);
        close(outputs[i]);
    }
    return 0;
}

static int is_refused(void) {
    requests++;
    int is_tried = !is_copy && every > 0 && requests >= first && (requests - first) % every == 0;
    int refused = is_copy ? refuses_all : is_tried && (is_copy_that_refuses(0) || is_copy_that_refuses(1));
    *refusals += refused;
    return refused;
}

static struct answer answered(void *at) {
    struct answer it = {at != 0, at ? at : nowhere};
    return it;
}

struct answer rattle_alloc(size bytes, size align) {
    return answered(is_refused() ? 0 : malloc(bytes ? bytes : align));
}

struct answer rattle_realloc(void *at, size kept, size bytes, size align) {
    (void)kept;
    return answered(is_refused() ? 0 : realloc(at, bytes ? bytes : align));
}

void rattle_dealloc(void *at) { free(at); }

__attribute__((destructor)) static void tell(void) {
    if (!is_copy) dprintf(answers, "%ld\n", requests);
}
