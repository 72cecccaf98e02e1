/* Refuses growths of a program's memory. Loaded before the C library, it counts the calls of malloc and realloc, and the call whose number stands
   in REFUSE answers that there is no memory; with `N..` there each later one does too. At the first call that is refused the file that REFUSED
   names is made, so that who runs the program knows whether there was one. growths.py builds it and says how it is used. */
#include <errno.h>
#include <fcntl.h>
#include <stddef.h>
#include <stdlib.h>
#include <string.h>
#include <unistd.h>

void *__libc_malloc(size_t);
void *__libc_realloc(void *, size_t);

static unsigned long calls, at;
static int begun, onwards;

static int is_refused(void) {
  if (!begun) {
    char *word = getenv("REFUSE");
    begun = 1;
    at = word ? strtoul(word, &word, 10) : 0;
    onwards = word && *word == '.';
  }
  calls++;
  if (!at || calls < at || (calls > at && !onwards)) return 0;
  if (calls == at && getenv("REFUSED")) close(open(getenv("REFUSED"), O_CREAT | O_WRONLY, 0600));
  errno = ENOMEM;
  return 1;
}

void *malloc(size_t size) { return is_refused() ? NULL : __libc_malloc(size); }
void *realloc(void *block, size_t size) { return is_refused() ? NULL : __libc_realloc(block, size); }
