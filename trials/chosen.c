/* Chooses a wrong body by its number in the variable MUTANT. If the variable is not set, the program
   that this is linked into copies itself to KEPT instead: rt try removes what it built. */

#define _GNU_SOURCE
#include <dlfcn.h>
#include <fcntl.h>
#include <stdlib.h>
#include <unistd.h>

static unsigned number;

__attribute__((constructor)) static void start(void) {
  static char buffer[1 << 16];
  const char *word = getenv("MUTANT");
  Dl_info here;
  if (word) {
    number = (unsigned)atoi(word);
  } else if (dladdr((void *)start, &here)) {
    int from = open(here.dli_fname, O_RDONLY);
    int to = open(KEPT, O_CREAT | O_WRONLY | O_TRUNC, 0755);
    for (long size; (size = read(from, buffer, sizeof buffer)) > 0;) {
      if (write(to, buffer, size) != size) {
        exit(1);
      }
    }
    close(from);
    close(to);
  }
}

unsigned chosen_mutant(void) { return number; }
