// Memory that is refused: a library for LD_PRELOAD, which .ci/edges.d/memory compiles. A program of the kit takes its
// memory by malloc and realloc alone; what the C library itself takes by them is counted and refused too.
//
//   REFUSED_FROM  the number of the first allocation that is refused, counted from 1
//   REFUSED_MOST  how many are refused from there on
//   REFUSED_NOTE  a file that is made as soon as one is refused
//
// The kit's clang has no headers, so what is used of the C library is declared here. For Linux on x86-64 alone.
typedef unsigned long size;
extern void *__libc_malloc(size length);
extern void *__libc_realloc(void *at, size length);
extern char *getenv(const char *name);
extern long strtol(const char *text, char **end, int base);
extern int open(const char *path, int flags, ...);
extern int close(int file);
extern int *__errno_location(void);

enum { WRITE = 1, MAKE = 0100, ENOMEM = 12 };

static long begun, count, from, most;

static long number(const char *name) {
  const char *text = getenv(name);
  return text ? strtol(text, 0, 10) : 0;
}

// Whether the allocation that is asked for now is refused. The first one is made while the process has one thread.
static int is_refused(void) {
  if (!begun) {
    begun = 1;
    from = number("REFUSED_FROM");
    most = number("REFUSED_MOST");
  }
  long now = __atomic_add_fetch(&count, 1, __ATOMIC_SEQ_CST);
  if (!from || now < from || now - from >= most) return 0;
  const char *path = getenv("REFUSED_NOTE");
  if (path && now == from) close(open(path, WRITE | MAKE, 0644));
  *__errno_location() = ENOMEM;
  return 1;
}

void *malloc(size length) { return is_refused() ? 0 : __libc_malloc(length); }
void *realloc(void *at, size length) { return is_refused() ? 0 : __libc_realloc(at, length); }
