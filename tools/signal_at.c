/* Preloaded into a program: at the N-th call of one function it first sends itself a signal. SIGNAL_AT is the function,
   fchmod, fsync or rename; SIGNAL_NTH is N, and SIGNAL the number of the signal. Without headers, so that the kit's own
   compiler builds it. */
extern void *dlsym(void *, const char *);
extern char *getenv(const char *);
extern int raise(int);
extern int strcmp(const char *, const char *);
extern long strtol(const char *, char **, int);

static long count;

static long number(const char *name) {
    const char *given = getenv(name);
    return given ? strtol(given, 0, 10) : 0;
}

/* The function of the C library, once the signal was sent where it is due. */
static void *after_signal(const char *name) {
    const char *due = getenv("SIGNAL_AT");
    if (due && !strcmp(due, name) && ++count == number("SIGNAL_NTH"))
        raise((int)number("SIGNAL"));
    return dlsym((void *)-1, name);
}

int fchmod(int file, unsigned mode) { return ((int (*)(int, unsigned))after_signal("fchmod"))(file, mode); }
int fsync(int file) { return ((int (*)(int))after_signal("fsync"))(file); }
int rename(const char *from, const char *to) {
    return ((int (*)(const char *, const char *))after_signal("rename"))(from, to);
}
