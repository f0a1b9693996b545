// Which of the wrong bodies that tools/planting.py has planted in a program is run: the one whose number is
// in the variable BODY; without it none, and each function has its own body. The file that ASKED names gets
// a byte for each number, 1 if the program has come to that body's place.
extern char *getenv(const char *);
extern long strtol(const char *, char **, int);
extern int open(const char *, int, ...);
extern long write(int, const void *, unsigned long);

enum { BODIES = 4096, NONE = -1, WRITE_CREATE_TRUNCATE = 01101, MODE = 0644 };

static char asked[BODIES];
static long chosen = NONE;

_Bool chosen_body(unsigned number) {
    if (chosen == NONE) {
        const char *given = getenv("BODY");
        chosen = given ? strtol(given, 0, 10) : 0;
    }
    if (number < BODIES) asked[number] = 1;
    return chosen == (long)number;
}

__attribute__((destructor)) static void note(void) {
    const char *file = getenv("ASKED");
    int at = file ? open(file, WRITE_CREATE_TRUNCATE, MODE) : -1;
    if (at >= 0 && write(at, asked, BODIES) < BODIES) asked[0] = 0;
}
