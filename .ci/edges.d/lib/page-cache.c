// A disk whose syncs fail, under the page cache of Linux: a library for LD_PRELOAD, which .ci/edges.d/power compiles.
//
// The files of the folder $PAGE_CACHE whose names begin with "store" are what the system shows. What the device has of
// the file NAME is in the folder's device/NAME, and in device/NAME.pages the state of each page of 4 KiB: clean, dirty
// (written since it last reached the device), or lost. A page is lost where writing it back failed: Linux takes it for
// clean then, shows it as long as its memory lasts, and never writes it again by itself. The error is told once, by the
// next sync, also to another process.
//
// A sync writes the dirty pages to the device. One that fails writes some of them and loses the others. Between calls
// some pages are written by themselves, some of these are lost, and some lost ones leave the memory: a read then gives
// what the device has. A write makes its page dirty, even if it changes nothing. A cut is on the device after the next
// sync.
//
//   PAGE_CACHE_SEED   what happens by chance
//   PAGE_CACHE_FAIL   the numbers of the syncs that fail, counted from 1, joined by commas
//   PAGE_CACHE_BACK   of a thousand writes, how many lose a page after them
//   PAGE_CACHE_KILL   the number of the call (write, sync, cut) in which the process is killed
//   PAGE_CACHE_WHERE  0 before that call, 1 in its middle, 2 after it
//   PAGE_CACHE_DEAF   if it is set, a write of one byte that changes nothing makes no page dirty: a program that needs
//                     such writes loses commits then
//   PAGE_CACHE_MOVED  if it is set, the file "store" is moved to this path before its lock is taken, and a new one made
//
// The kit's clang has no headers, so what is used of the C library is declared here. For Linux on x86-64 alone.
typedef unsigned long size;
typedef long offset;
extern long syscall(long number, ...);
extern char *getenv(const char *name);
extern long strtol(const char *text, char **end, int base);
extern size strlen(const char *text);
extern int strncmp(const char *one, const char *other, size most);
extern int strcmp(const char *one, const char *other);
extern int snprintf(char *out, size room, const char *form, ...);
extern int open(const char *path, int flags, ...);
extern int close(int file);
extern int access(const char *path, int how);
extern int rename(const char *from, const char *to);
extern long readlink(const char *path, char *out, size room);
extern void *mmap(void *at, size length, int what, int how, int file, offset from);
extern int munmap(void *at, size length);
extern int *__errno_location(void);

enum { LSEEK = 8, PREAD = 17, PWRITE = 18, GETPID = 39, KILL = 62, LOCK = 73, FSYNC = 74, CUT = 77 };
enum { READ_WRITE = 2, MAKE = 0100, SIGKILL = 9, EIO = 5, PAGE = 4096, MOST = 1 << 14 };
enum { CLEAN, DIRTY, LOST };

struct pages {
  unsigned long cut; // one more than the least length that the file was cut to since the last sync, or 0
  unsigned long error; // whether a page was lost since the last sync
  unsigned char page[MOST];
};

struct seen {
  char name[256];
  int cache, device;
  struct pages *state;
  long length;
};

static unsigned long chance, begun, calls, syncs;

static long number(const char *name) {
  const char *text = getenv(name);
  return text ? strtol(text, 0, 10) : 0;
}

// A number below a bound, by chance.
static unsigned long below(unsigned long bound) {
  if (!begun) {
    begun = 1;
    chance = (unsigned long)number("PAGE_CACHE_SEED") * 2654435769u + 12345;
  }
  chance = chance * 6364136223846793005u + 1442695040888963407u;
  return (chance >> 33) % bound;
}

static long read_at(int file, void *to, size count, offset at) { return syscall(PREAD, file, to, count, at); }
static long write_at(int file, const void *from, size count, offset at) {
  return syscall(PWRITE, file, from, count, at);
}
static void end(void) { syscall(KILL, syscall(GETPID), SIGKILL); }

// The path of an open file, below the folder, or 0.
static const char *inside(int file, char *path, size room) {
  char link[64];
  const char *folder = getenv("PAGE_CACHE");
  snprintf(link, sizeof link, "/proc/self/fd/%d", file);
  long length = readlink(link, path, room - 1);
  if (!folder || length <= 0) return 0;
  path[length] = 0;
  size part = strlen(folder);
  if (strncmp(path, folder, part)) return 0;
  return path[part] == '/' ? path + part + 1 : path[part] ? 0 : path + part;
}

// Whether an open file is one of those; then what is known of it.
static int is_seen(int file, struct seen *it) {
  char path[4096], beside[4400];
  const char *name = inside(file, path, sizeof path);
  if (!name || strncmp(name, "store", 5)) return 0;
  for (const char *at = name; *at; at++)
    if (*at == '/') return 0;
  snprintf(it->name, sizeof it->name, "%s", name);
  it->cache = open(path, READ_WRITE);
  snprintf(beside, sizeof beside, "%s/device/%s", getenv("PAGE_CACHE"), name);
  it->device = open(beside, READ_WRITE | MAKE, 0644);
  snprintf(beside, sizeof beside, "%s/device/%s.pages", getenv("PAGE_CACHE"), name);
  int state = open(beside, READ_WRITE | MAKE, 0644);
  syscall(CUT, state, sizeof(struct pages));
  it->state = mmap(0, sizeof(struct pages), 3, 1, state, 0);
  close(state);
  it->length = syscall(LSEEK, it->cache, 0, 2);
  return 1;
}

static void leave(struct seen *it) {
  munmap(it->state, sizeof(struct pages));
  close(it->cache);
  close(it->device);
}

static long count(struct seen *it) {
  long pages = (it->length + PAGE - 1) / PAGE;
  return pages < MOST ? pages : MOST;
}

static void copy(int from, int to, long page, long length) {
  char bytes[PAGE] = {0};
  long most = length - page * PAGE;
  read_at(from, bytes, PAGE, page * PAGE);
  if (most > 0) write_at(to, bytes, most < PAGE ? most : PAGE, page * PAGE);
}

// The device gets the cut.
static void cut_device(struct seen *it) {
  if (it->state->cut) syscall(CUT, it->device, it->state->cut - 1);
  it->state->cut = 0;
}

static void write_back(struct seen *it, long page) {
  cut_device(it);
  copy(it->cache, it->device, page, it->length);
  it->state->page[page] = CLEAN;
}

// What happens by itself: some dirty pages reach the device or are lost on the way, some lost ones leave the memory.
static void by_itself(struct seen *it, int after_write) {
  long lose = after_write && (long)below(1000) < number("PAGE_CACHE_BACK");
  long writes = after_write && below(12) == 0, drops = below(40) == 0;
  for (long page = 0; page < count(it); page++) {
    unsigned char *state = &it->state->page[page];
    if (*state == DIRTY && lose && below(2)) {
      *state = LOST;
      it->state->error = 1;
    } else if (*state == DIRTY && writes && below(2)) {
      write_back(it, page);
    } else if (*state == LOST && drops && below(2)) {
      copy(it->device, it->cache, page, it->length);
      *state = CLEAN;
    }
  }
}

// Whether the process is killed in this call, and where: 1 before it, 2 in its middle, 3 after it.
static int killed(void) {
  return ++calls == (unsigned long)number("PAGE_CACHE_KILL") ? (int)number("PAGE_CACHE_WHERE") + 1 : 0;
}

static int fails(unsigned long sync) {
  const char *at = getenv("PAGE_CACHE_FAIL");
  while (at && *at) {
    char *next;
    if ((unsigned long)strtol(at, &next, 10) == sync) return 1;
    at = *next ? next + 1 : next;
  }
  return 0;
}

// Notes beside the device that something happened.
static void note(const char *what) {
  char path[4400];
  snprintf(path, sizeof path, "%s/device/%s", getenv("PAGE_CACHE"), what);
  close(open(path, READ_WRITE | MAKE, 0644));
}

static int refuse(void) {
  *__errno_location() = EIO;
  return -1;
}

long pread(int file, void *to, size count, offset at) {
  struct seen it;
  if (is_seen(file, &it)) {
    by_itself(&it, 0);
    leave(&it);
  }
  return read_at(file, to, count, at);
}

long pwrite(int file, const void *from, size count, offset at) {
  struct seen it;
  if (!is_seen(file, &it)) return write_at(file, from, count, at);
  int kill = killed();
  if (kill == 1) end();
  char shown;
  int is_again = count == 1 && read_at(file, &shown, 1, at) == 1 && shown == *(const char *)from;
  if (is_again) note("again");
  long put = write_at(file, from, kill == 2 ? (count + 1) / 2 : count, at);
  int is_heard = !is_again || !getenv("PAGE_CACHE_DEAF");
  for (long page = at / PAGE; is_heard && put > 0 && page <= (at + put - 1) / PAGE && page < MOST; page++)
    it.state->page[page] = DIRTY;
  if (kill) end();
  it.length = syscall(LSEEK, it.cache, 0, 2);
  by_itself(&it, 1);
  leave(&it);
  return put;
}

// The names in a folder are kept from its sync on.
static int sync_folder(int file) {
  char path[4096], there[4400];
  const char *name = inside(file, path, sizeof path), *names[] = {"store", "store.2"};
  if (!name || *name) return (int)syscall(FSYNC, file);
  for (int which = 0; which < 2; which++) {
    snprintf(there, sizeof there, "%s/%s", getenv("PAGE_CACHE"), names[which]);
    if (!access(there, 0)) note(which ? "store.2.named" : "store.named");
  }
  return 0;
}

static int sync(int file) {
  struct seen it;
  if (!is_seen(file, &it)) return sync_folder(file);
  int kill = killed(), is_lost = it.state->error, is_failing = fails(++syncs);
  if (kill == 1) end();
  if (is_failing) note("failed");
  for (long page = 0; page < count(&it); page++) {
    if (it.state->page[page] != DIRTY) continue;
    if ((is_failing || kill == 2) && below(2)) {
      if (is_failing) it.state->page[page] = LOST;
    } else {
      write_back(&it, page);
    }
  }
  if (kill == 2) end();
  it.state->error = 0;
  if (!is_failing) {
    cut_device(&it);
    syscall(CUT, it.device, it.length);
  }
  if (kill) end();
  leave(&it);
  return is_failing || is_lost ? refuse() : 0;
}

static int cut(int file, offset length) {
  struct seen it;
  if (!is_seen(file, &it)) return (int)syscall(CUT, file, length);
  int kill = killed();
  if (kill == 1) end();
  int done = (int)syscall(CUT, file, length);
  if (!done && (!it.state->cut || (unsigned long)length < it.state->cut - 1)) it.state->cut = (unsigned long)length + 1;
  for (long page = (length + PAGE - 1) / PAGE; !done && page < MOST; page++) it.state->page[page] = CLEAN;
  if (!done && length % PAGE) it.state->page[length / PAGE] = DIRTY;
  if (kill) end();
  leave(&it);
  return done;
}

int flock(int file, int how) {
  char path[4096];
  const char *name = inside(file, path, sizeof path), *moved = getenv("PAGE_CACHE_MOVED");
  if (moved && name && !strcmp(name, "store") && !rename(path, moved)) close(open(path, READ_WRITE | MAKE, 0644));
  return (int)syscall(LOCK, file, how);
}

long pread64(int file, void *to, size count, offset at) { return pread(file, to, count, at); }
long pwrite64(int file, const void *from, size count, offset at) { return pwrite(file, from, count, at); }
int fsync(int file) { return sync(file); }
int fdatasync(int file) { return sync(file); }
int ftruncate(int file, offset length) { return cut(file, length); }
int ftruncate64(int file, offset length) { return cut(file, length); }
