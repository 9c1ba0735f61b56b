/* Loaded before a program, it has chosen calls of read, write, fsync and close fail. FAULTS names them, a word each:

       CALL,FILE,NUMBER,OUTCOME

   CALL is r, w, s or c. FILE is the descriptor, 3 standing for all from 3 on. NUMBER counts such calls from 1. OUTCOME is
   an error's number; 0: nothing is moved, and no error; below 0: no more bytes than that are moved.
   A fault that was made leaves a file `made-N` in the folder that MADE names, N being its place among the words; where MADE
   is not set, or does not start with a slash, it leaves none.

   It uses no header and links no library: what it calls is the program's own. */

extern char *getenv(const char *name);
extern long strtol(const char *text, char **end, int base);
extern long syscall(long number, ...);
extern int *__errno_location(void);
extern int creat(const char *path, unsigned mode);
extern int snprintf(char *text, unsigned long room, const char *form, ...);

#if !defined(__x86_64__)
#error "the numbers of the calls are not known here"
#endif
enum { READ = 0, WRITE = 1, CLOSE = 3, SYNC = 74 };

enum { FILES = 4, LONGEST = 4096, NO_FAULT = 1000000 };

/* How many calls of each kind each file has had. */
static long calls[4][FILES];

static void leave_mark(int place)
{
    const char *folder = getenv("MADE");
    char path[LONGEST];
    if (!folder || folder[0] != '/' || snprintf(path, LONGEST, "%s/made-%d", folder, place) >= LONGEST)
        return;
    syscall(CLOSE, creat(path, 0600));
}

/* What FAULTS says of this call, or NO_FAULT. */
static long outcome(char kind, int call, int file)
{
    const char *word = getenv("FAULTS");
    const int class = file < FILES ? file : FILES - 1;
    const long number = ++calls[call][class];
    for (int place = 0; word && *word; place++) {
        char *next;
        const char named = word[0];
        const long in = strtol(word + 2, &next, 10);
        const long at = strtol(next + 1, &next, 10);
        const long what = strtol(next + 1, &next, 10);
        if (named == kind && in == class && at == number) {
            leave_mark(place);
            return what;
        }
        word = *next ? next + 1 : next;
    }
    return NO_FAULT;
}

static long fail(long error)
{
    *__errno_location() = (int)error;
    return -1;
}

static long move(long number, long what, int file, const void *bytes, unsigned long length)
{
    if (what == 0)
        return 0;
    if (what > 0 && what != NO_FAULT)
        return fail(what);
    if (what < 0 && length > (unsigned long)-what)
        length = (unsigned long)-what;
    return syscall(number, file, bytes, length);
}

long read(int file, void *bytes, unsigned long length)
{
    return file < 0 ? fail(9) : move(READ, outcome('r', 0, file), file, bytes, length);
}

long write(int file, const void *bytes, unsigned long length)
{
    return file < 0 ? fail(9) : move(WRITE, outcome('w', 1, file), file, bytes, length);
}

static int end(long number, long what, int file)
{
    return (int)(what == NO_FAULT ? syscall(number, file) : fail(what));
}

int fsync(int file)
{
    return end(SYNC, file < 0 ? 9 : outcome('s', 2, file), file);
}

int close(int file)
{
    return end(CLOSE, file < 0 ? 9 : outcome('c', 3, file), file);
}
