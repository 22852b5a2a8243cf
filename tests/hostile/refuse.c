/* Refuses requests for memory of the program that it is loaded before (LD_PRELOAD).
 *
 * REFUSE_FIRST and REFUSE_LAST say which, counted from 1; without them none is refused. REFUSE_COUNT
 * names a file that keeps the number of requests so far: a program may end without any last words. */

typedef unsigned long size;

extern void *__libc_malloc(size bytes);
extern void *__libc_calloc(size count, size bytes);
extern void *__libc_realloc(void *old, size bytes);
extern int *__errno_location(void);
extern char *getenv(const char *name);
extern unsigned long strtoul(const char *text, char **end, int base);
extern int open(const char *path, int flags, ...);
extern long pwrite(int file, const void *bytes, size count, long at);

static long asked;
static long first;
static long last;
static int kept = -1;

static long number(const char *name) {
  const char *text = getenv(name);
  return text ? (long)strtoul(text, 0, 10) : 0;
}

static void begin(void) {
  const char *path = getenv("REFUSE_COUNT");
  first = number("REFUSE_FIRST");
  last = number("REFUSE_LAST");
  if (path) kept = open(path, 01 | 0100 | 01000, 0644); /* for writing, made new, emptied */
}

static void tell(long now) {
  char text[12];
  int at = sizeof text;
  text[--at] = '\n';
  while (at) {
    text[--at] = (char)('0' + now % 10);
    now /= 10;
  }
  pwrite(kept, text, sizeof text, 0);
}

static int refused(void) {
  long now = __atomic_add_fetch(&asked, 1, __ATOMIC_SEQ_CST);
  if (now == 1) begin();
  if (kept >= 0) tell(now);
  if (first == 0 || now < first || now > last) return 0;
  *__errno_location() = 12; /* ENOMEM */
  return 1;
}

void *malloc(size bytes) { return refused() ? 0 : __libc_malloc(bytes); }
void *calloc(size count, size bytes) { return refused() ? 0 : __libc_calloc(count, bytes); }
void *realloc(void *old, size bytes) { return refused() ? 0 : __libc_realloc(old, bytes); }
