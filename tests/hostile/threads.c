/* Counts the threads that the program starts which it is loaded before (LD_PRELOAD).
 *
 * THREADS_COUNT names a file that gets a byte for each; it is made with the first. */

typedef int create(void *thread, const void *attributes, void *(*begin)(void *), void *given);

extern char *getenv(const char *name);
extern int open(const char *path, int flags, ...);
extern long write(int file, const void *bytes, unsigned long count);
extern int close(int file);
extern void *dlsym(void *from, const char *name);

/* One byte more in the file. */
static void tell(void) {
  const char *path = getenv("THREADS_COUNT");
  int file = path ? open(path, 01 | 0100 | 02000, 0644) : -1; /* for writing, made if need be, at its end */
  if (file < 0) return;
  write(file, "\n", 1);
  close(file);
}

int pthread_create(void *thread, const void *attributes, void *(*begin)(void *), void *given) {
  create *next = (create *)dlsym((void *)-1l, "pthread_create"); /* of what is loaded behind this */
  tell();
  return next(thread, attributes, begin, given);
}
