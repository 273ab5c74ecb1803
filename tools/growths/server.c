/* Preloaded into a program, takes its place before its `main`: it reads runs from standard input, carries each out in a child of its own, and answers on
   standard output. So a run costs no start of the program.

   A run is asked for by five numbers of four bytes: the first growth of memory that is refused, counted from 1, or 0 for none; how many are refused in
   a row; 1 where its devices are to count as terminals; how many words its command line has; and how many bytes these have, each with a byte 0 behind it.
   The words follow. The child reads the file `in` of the folder that is
   the server's one argument as its standard input, writes `out` and `err` there, and finds no file `image`. The answer is three numbers: the status
   as `waitpid` gives it, how many growths there were, and whether one was refused. A child that takes 60 seconds is ended.

   It includes no header, since the toolchain's clang has none. */

typedef __SIZE_TYPE__ size_t;
typedef __UINT32_TYPE__ u32;
typedef int main_of(int, char **, char **);
typedef int start_of(main_of *, int, char **, void (*)(void), void (*)(void), void (*)(void), void *);

/* Of the C library. */
void *__libc_malloc(size_t);
void *__libc_calloc(size_t, size_t);
void *__libc_realloc(void *, size_t);
void *__libc_memalign(size_t, size_t);
int *__errno_location(void);
void *dlsym(void *, const char *);
void *mmap(void *, size_t, int, int, int, long);
long read(int, void *, size_t);
long write(int, const void *, size_t);
int open(const char *, int, ...);
int openat(int, const char *, int, ...);
size_t strlen(const char *);
int unlinkat(int, const char *, int);
int dup2(int, int);
int close(int);
int fork(void);
int waitpid(int, int *, int);
unsigned alarm(unsigned);
_Noreturn void exit(int);
_Noreturn void _exit(int);

/* Numbers of Linux on x86-64. */
enum { READS = 0, WRITES = 01 | 0100 | 01000, FOLDER = 0200000, READ_AND_WRITE = 3, SHARED_MEMORY = 0x21, WANT_OF_MEMORY = 12 };

enum { SECONDS = 60, MOST_WORDS = 64, MOST_BYTES = 65536, FAILED = 125 };

/* What a child counts, in memory that the server sees too. */
struct seen {
    u32 count, is_refused;
};

static struct seen *seen;
static u32 first_refused, in_a_row, at_terminal;
static int is_child;

static int is_refused(void)
{
    if (!is_child || ++seen->count - first_refused >= in_a_row || first_refused == 0)
        return 0;
    seen->is_refused = 1;
    *__errno_location() = WANT_OF_MEMORY;
    return 1;
}

void *malloc(size_t size)
{
    return is_refused() ? 0 : __libc_malloc(size);
}

void *calloc(size_t count, size_t size)
{
    return is_refused() ? 0 : __libc_calloc(count, size);
}

void *realloc(void *block, size_t size)
{
    return is_refused() ? 0 : __libc_realloc(block, size);
}

void *memalign(size_t alignment, size_t size)
{
    return is_refused() ? 0 : __libc_memalign(alignment, size);
}

void *aligned_alloc(size_t alignment, size_t size)
{
    return memalign(alignment, size);
}

int posix_memalign(void **block, size_t alignment, size_t size)
{
    void *found = memalign(alignment, size);
    if (!found)
        return WANT_OF_MEMORY;
    *block = found;
    return 0;
}

int isatty(int device)
{
    (void)device;
    return is_child && at_terminal;
}

/* Reads so many bytes; 0 at the end of the input. */
static int take(void *to, size_t size)
{
    for (size_t got = 0; got < size;) {
        long more = read(0, (char *)to + got, size - got);
        if (more <= 0)
            return 0;
        got += more;
    }
    return 1;
}

/* Takes a run's words, as a list with a null behind them; 0 at the end of the input, or where there are too many. */
static char **take_words(u32 count, u32 size)
{
    static char bytes[MOST_BYTES], *words[MOST_WORDS + 1];
    if (count == 0 || count > MOST_WORDS || size > MOST_BYTES || !take(bytes, size))
        return 0;
    char *at = bytes;
    for (u32 i = 0; i < count; i++) {
        words[i] = at;
        at += strlen(at) + 1;
    }
    words[count] = 0;
    return words;
}

/* Opens a file of a folder in the place of a device. */
static void redirect(int room, const char *name, int device, int how)
{
    int file = openat(room, name, how, 0600);
    if (file < 0 || dup2(file, device) < 0)
        _exit(FAILED);
    close(file);
}

/* The child's devices. */
static void redirect_all(int room)
{
    unlinkat(room, "image", 0);
    redirect(room, "in", 0, READS);
    redirect(room, "out", 1, WRITES);
    redirect(room, "err", 2, WRITES);
    close(room);
}

/* The C library's start of a program, which is to give it these words and call its `main`. Only a child comes to it. */
int __libc_start_main(main_of *program, int count, char **words, void (*first)(void), void (*last)(void), void (*unload)(void), void *stack)
{
    u32 asked[5];
    int room = count == 2 ? open(words[1], READS | FOLDER) : -1;
    seen = mmap(0, sizeof *seen, READ_AND_WRITE, SHARED_MEMORY, -1, 0);
    if (room < 0 || seen == (void *)-1)
        _exit(FAILED);
    while (take(asked, sizeof asked)) {
        char **given = take_words(asked[3], asked[4]);
        if (!given)
            break;
        first_refused = asked[0];
        in_a_row = asked[1];
        at_terminal = asked[2];
        *seen = (struct seen){0, 0};
        int child = fork(), status;
        if (child == 0) {
            redirect_all(room);
            alarm(SECONDS);
            start_of *start = (start_of *)dlsym((void *)-1, "__libc_start_main");
            is_child = 1;
            exit(start(program, asked[3], given, first, last, unload, stack));
        }
        if (child < 0 || waitpid(child, &status, 0) != child)
            break;
        u32 answer[3] = {status, seen->count, seen->is_refused};
        if (write(1, answer, sizeof answer) != sizeof answer)
            break;
    }
    _exit(FAILED);
}
