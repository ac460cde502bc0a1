/* Judges a scheme for a set of patterns: the set stands in the first file, the scheme in the
   second, each as one line of text. Prints `accepted`, or `refused`, the number of the refusal and
   its word. The exit status is 0, 1 where the scheme is refused, and 2 where a file cannot be
   read. */
#include "judge.h"

#include <stdio.h>
#include <stdlib.h>

static const char *const words[] = {
    "accepted", "misspelt", "oversize", "no permutation", "repeated", "rootless", "width",
    "no position", "childless", "no target", "live gap", "irreversible"};

/* The content of a file without the end of its last line; its length goes to *length. Null where
   it cannot be read. */
static uint8_t *content(const char *name, size_t *length) {
  FILE *file = fopen(name, "rb");
  uint8_t *bytes = NULL;
  size_t size = 0;
  *length = 0;
  if (!file) {
    perror(name);
    return NULL;
  }
  for (;;) {
    if (*length == size) {
      uint8_t *more = realloc(bytes, size += 65536);
      if (!more) break;
      bytes = more;
    }
    size_t got = fread(bytes + *length, 1, size - *length, file);
    *length += got;
    if (got == 0) break;
  }
  fclose(file);
  if (*length > 0 && bytes[*length - 1] == '\n') *length -= 1;
  return bytes;
}

int main(int count, char **arguments) {
  size_t patterns_length, scheme_length;
  if (count != 3) {
    fprintf(stderr, "usage: judge PATTERNS-FILE SCHEME-FILE\n");
    return 2;
  }
  uint8_t *patterns = content(arguments[1], &patterns_length);
  uint8_t *scheme = content(arguments[2], &scheme_length);
  if (!patterns || !scheme) return 2;
  uint32_t answer = judge(patterns, patterns_length, scheme, scheme_length);
  if (answer == 0)
    printf("accepted\n");
  else
    printf("refused %u %s\n", (unsigned)answer,
           answer < sizeof words / sizeof *words ? words[answer] : "");
  free(patterns);
  free(scheme);
  return answer != 0;
}
