/* Preloaded into a program: its N-th allocation is refused, N being REFUSE_NTH, and then the file REFUSE_TOLD
   is made. Without headers, so that the kit's own compiler builds it. */
typedef unsigned long size_t;
extern void *__libc_malloc(size_t);
extern void *__libc_realloc(void *, size_t);
extern char *getenv(const char *);
extern long strtol(const char *, char **, int);
extern int creat(const char *, unsigned);
extern int close(int);

static long count, nth;

static int is_refused(void) {
    if (!nth) {
        const char *given = getenv("REFUSE_NTH");
        nth = given ? strtol(given, 0, 10) : -1;
    }
    if (++count != nth)
        return 0;
    close(creat(getenv("REFUSE_TOLD"), 0600));
    return 1;
}

void *malloc(size_t size) { return is_refused() ? 0 : __libc_malloc(size); }
void *realloc(void *old, size_t size) { return is_refused() ? 0 : __libc_realloc(old, size); }
