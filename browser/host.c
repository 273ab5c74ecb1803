// What a linked vcm takes of a C library, for a page: a heap over the module's memory; arguments, reads and writes, which the page answers; and
// refusals of all else. The names are those that the compiler's module calls; `tools/browser` links this file in place of the C library.
typedef unsigned long size_t;
typedef long ssize_t;

// ---- what the page gives

#define PAGE(name) __attribute__((import_module("page"), import_name(#name)))
PAGE(argument) extern long page_argument(size_t number, void *to, size_t most);
PAGE(open) extern int page_open(const char *name, size_t length);
PAGE(read) extern long page_read(int file, void *to, size_t most);
PAGE(write) extern long page_write(int file, const void *from, size_t length);

// ---- bytes, which LLVM calls by these names

void *memcpy(void *to, const void *from, size_t length) {
  char *t = to;
  const char *f = from;
  while (length--) *t++ = *f++;
  return to;
}

void *memmove(void *to, const void *from, size_t length) {
  char *t = to;
  const char *f = from;
  if (t < f) return memcpy(to, from, length);
  while (length--) t[length] = f[length];
  return to;
}

void *memset(void *to, int byte, size_t length) {
  char *t = to;
  while (length--) *t++ = (char)byte;
  return to;
}

int memcmp(const void *left, const void *right, size_t length) {
  const unsigned char *l = left, *r = right;
  for (; length; length--, l++, r++)
    if (*l != *r) return *l - *r;
  return 0;
}

// ---- the heap

// A block takes 2 ^ k bytes: a head of 16 bytes, in which k stands, and what is handed out behind it. A block that was given back stands in the list
// of its k; its first bytes are then the next one of the list. No memory is ever given back to the page.
enum { HEAD = 16, LEAST = 5, MOST = 36, PAGE_BYTES = 16 };
struct tried { long is_given; void *block; };
static const struct tried refused = {0, 0};
extern unsigned char __heap_base;
static size_t unused;
static void *given_back[MOST + 1];

// The least k with room for so many bytes, or one above MOST.
static int class_of(size_t bytes) {
  int k = LEAST;
  while (k <= MOST && ((size_t)1 << k) - HEAD < bytes) k++;
  return k;
}

// Grows the memory up to this address, by its half at least while that is below 256 MB, so that it is grown seldom.
static int has_memory(size_t end) {
  size_t have = __builtin_wasm_memory_size(0);
  size_t need = (end + ((size_t)1 << PAGE_BYTES) - 1) >> PAGE_BYTES;
  if (need <= have) return 1;
  size_t more = need - have, half = have / 2;
  if (more < half && half < 4096) more = half;
  return __builtin_wasm_memory_grow(0, more) != (size_t)-1;
}

struct tried rattle_alloc(size_t bytes, size_t alignment) {
  int k = class_of(bytes);
  if (k > MOST || alignment > HEAD) return refused;
  char *block = given_back[k];
  if (block) {
    given_back[k] = *(void **)block;
    return (struct tried){1, block};
  }
  if (!unused) unused = ((size_t)&__heap_base + HEAD - 1) & ~(size_t)(HEAD - 1);
  if (!has_memory(unused + ((size_t)1 << k))) return refused;
  *(size_t *)unused = (size_t)k;
  block = (char *)unused + HEAD;
  unused += (size_t)1 << k;
  return (struct tried){1, block};
}

static int class_at(void *block) { return (int)*(size_t *)((char *)block - HEAD); }

void rattle_dealloc(void *block) {
  int k = class_at(block);
  *(void **)block = given_back[k];
  given_back[k] = block;
}

// Keeps the first bytes of a block in one of another size.
struct tried rattle_realloc(void *block, size_t kept, size_t bytes, size_t alignment) {
  if (class_of(bytes) <= class_at(block)) return (struct tried){1, block};
  struct tried made = rattle_alloc(bytes, alignment);
  if (made.is_given) {
    memcpy(made.block, block, kept < bytes ? kept : bytes);
    rattle_dealloc(block);
  }
  return made;
}

// ---- arguments, files and streams

enum { NO_SUCH_FILE = 2, NO_SEEK = 29 };
static int error;
int rattle_errno(void) { return error; }
void rattle_set_errno(int number) { error = number; }

ssize_t rattle_arg(size_t number, void *to, size_t most) { return page_argument(number, to, most); }

// The environment is empty.
ssize_t rattle_env(const void *name, void *to, size_t most) { return -1; }
ssize_t rattle_env_at(size_t number, void *to, size_t most) { return -1; }

ssize_t read(int file, void *to, size_t most) { return page_read(file, to, most); }
ssize_t write(int file, const void *from, size_t length) { return page_write(file, from, length); }

// Files are only read: the page has those that a call was given, and no other can be opened.
int open(const char *name, int flags, ...) {
  size_t length = 0;
  while (name[length]) length++;
  int file = page_open(name, length);
  if (file < 0) error = NO_SUCH_FILE;
  return file;
}

int close(int file) { return 0; }

// A file of the page is known by its name alone: two names are two files.
int statx(int folder, const char *name, int flags, unsigned wanted, void *to) {
  error = NO_SUCH_FILE;
  return -1;
}

// No file is a terminal.
int isatty(int file) { return 0; }

long lseek(int file, long at, int from) {
  error = NO_SEEK;
  return -1;
}

// ---- the start of the program

// A page has no signals.
long __sysv_signal(int number, long handler) { return 0; }

// A program first asks whether the processor has what it was built for, and writes a message where it has not. Here it is built for a module, so it has all.
static const unsigned char features[] = {255, 255, 255, 255, 255, 255, 255, 255, 255, 255, 255, 255, 255, 255, 255, 255,
                                         255, 255, 255, 255, 255, 255, 255, 255, 255, 255, 255, 255, 255, 255, 255, 255};
const void *__x86_get_cpuid_feature_leaf(int leaf) { return features; }
ssize_t __write(int file, const void *from, size_t length) { return page_write(file, from, length); }

extern int program(void);
__attribute__((export_name("run"))) int run(void) { return program(); }
