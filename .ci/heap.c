/* The heap of a program that the gate runs. At its end the program must have freed each block that
   it took: if not, it says so on standard error, and ends with status 97.

   With IN_TURN it runs once for each request for memory that it makes, with that one refused, and
   then once with none refused. A run is a child of the process, begun before `main`, which reads
   standard input from its start. A line `-- request NUMBER is refused: status STATUS` on both
   outputs ends each run in which the request has come. The last run has no such line, and its
   status is that of the process. With a first word that begins with `--`, as `--list` of tests, the
   program runs once as it is.

   A test of calls that need no memory has each request refused between `refuse_memory` and
   `refused_requests`, which returns how many there were.

   It is loaded by LD_PRELOAD, or linked into a program with a sanitizer, and uses its heap. */

typedef unsigned long size_t;
extern void *__libc_malloc(size_t size);
extern void *__libc_realloc(void *block, size_t size);
extern void __libc_free(void *block);
extern void *__interceptor_malloc(size_t size) __attribute__((weak));
extern void *__interceptor_realloc(void *block, size_t size) __attribute__((weak));
extern void __interceptor_free(void *block) __attribute__((weak));
extern void *mmap(void *address, size_t length, int protection, int flags, int file, long offset);
extern int fork(void);
extern int waitpid(int child, int *status, int options);
extern long lseek(int file, long offset, int whence);
extern int dprintf(int file, const char *format, ...);
extern void _exit(int status);

/* How many blocks the program has. */
static long blocks;
/* How many requests are left up to the one that is refused; 0 if none is. */
static int left;
/* Whether it has come: in memory that the process shares with its children. */
static int *has_come;
/* Whether every request is refused, and how many were. */
static int refuses_all;
static unsigned refused;

void refuse_memory(void) {
  refuses_all = 1;
  refused = 0;
}

unsigned refused_requests(void) {
  refuses_all = 0;
  return refused;
}

static int is_refused(void) {
  if (refuses_all) {
    refused++;
    return 1;
  }
  if (left == 0 || --left > 0) {
    return 0;
  }
  *has_come = 1;
  return 1;
}

void *malloc(size_t size) {
  if (is_refused()) {
    return 0;
  }
  void *made = __interceptor_malloc ? __interceptor_malloc(size) : __libc_malloc(size);
  blocks += made != 0;
  return made;
}

void *realloc(void *block, size_t size) {
  if (is_refused()) {
    return 0;
  }
  void *made =
      __interceptor_realloc ? __interceptor_realloc(block, size) : __libc_realloc(block, size);
  blocks += block == 0 && made != 0;
  return made;
}

void free(void *block) {
  blocks -= block != 0;
  if (__interceptor_free) {
    __interceptor_free(block);
  } else {
    __libc_free(block);
  }
}

#ifdef IN_TURN
static void run_in_turn(int count, char **words) {
  if (count > 1 && words[1][0] == '-' && words[1][1] == '-') {
    return;
  }
  /* to be read and written; shared, and of no file */
  has_come = mmap(0, sizeof *has_come, 3, 0x21, -1, 0);
  for (int place = 1;; place++) {
    *has_come = 0;
    int child = fork();
    if (child == 0) {
      left = place;
      return;
    }
    int ended = 0;
    waitpid(child, &ended, 0);
    /* the number of a signal, or what the child ended with */
    int status = ended & 127 ? 128 + (ended & 127) : ended >> 8;
    if (!*has_come) {
      _exit(status);
    }
    for (int file = 1; file <= 2; file++) {
      dprintf(file, "-- request %d is refused: status %d\n", place, status);
    }
    lseek(0, 0, 0);
  }
}
#endif

__attribute__((constructor)) static void begin(int count, char **words) {
#ifdef IN_TURN
  run_in_turn(count, words);
#endif
  blocks = 0;
}

__attribute__((destructor)) static void end(void) {
  if (blocks != 0) {
    dprintf(2, "%ld blocks of memory are not freed\n", blocks);
    _exit(97);
  }
}
