/* Lets one thing fail in each of many runs of a program, and judges how each ended.
     refusals PROGRAM LIBRARY KIND STEP NUMBER DUMP WORDS..
   LIBRARY is refuse.c's. The run without a failure comes first. Then the Nth thing fails, for N = 1, 2, .. until nothing failed in a run;
   after the first 100, N rises by STEP. KIND says what fails, and how a run must end in which it failed:
     memory        a growth: status 3, `no memory` and nothing written, or as without a failure
     memory-on     that growth and each later one: the same
     memory-test   a growth of a program of tests, of which WORDS name one: the test passes, or ends with an error of its own; an assertion aborts it
     read-ERROR    a read of DUMP, the file of this NUMBER among WORDS: status 3, `read failed: file NUMBER` and nothing written
     write-ERROR   a write on standard output (each takes 61 bytes at most): status 3, `write failed`, a front of the report;
                   for EPIPE, a reader that is gone, nothing is said
     thread        the start of a thread: as without a failure
     thread-on     that start and each later one: the same
     short-reads   nothing: the one run reads one byte at a time, and ends as without it
     short-writes  nothing: the one run writes one byte at a time
   Where `-` is among WORDS, DUMP is the standard input.
   ERROR is the name of an error; `none` is a write that takes no byte. Prints a line, and one for each run that failed. */
#include "run.h"

enum { GROWTHS = 0, READS = 2, WRITES = 4, THREADS = 6 };
static const struct { const char *name; int number; } errors[] = { { "EIO", EIO }, { "EINTR", EINTR }, { "ENOSPC", ENOSPC }, { "EPIPE", EPIPE }, { "none", 0 } };
static char settings[8][4200], *given[9]; static int count;

static char *set(const char *name, const char *value) {
  snprintf(settings[count], sizeof settings[count], "%s=%s", name, value);
  given[count] = settings[count]; given[count + 1] = NULL;
  return settings[count++];
}

static int error_of(const char *name) {
  for (size_t i = 0; i < sizeof errors / sizeof *errors; i++) if (!strcmp(errors[i].name, name)) return errors[i].number;
  fprintf(stderr, "no such error: %s\n", name); exit(2);
}

static int starts(const char *text, const char *front) { return !strncmp(text, front, strlen(front)); }

int main(int n, char **words) {
  if (n < 8) { fprintf(stderr, "refusals PROGRAM LIBRARY KIND STEP NUMBER DUMP WORDS..\n"); return 2; }
  char *program = words[1], *library = words[2], *kind = words[3], *number = words[5], *dump = words[6], line[64], value[32];
  long step = atol(words[4]); words += 6; words[0] = program;
  char tell[] = "told-XXXXXX"; int file = mkstemp(tell);
  if (file < 0 || ftruncate(file, 64)) die("told");
  long *told = mmap(NULL, 64, PROT_READ | PROT_WRITE, MAP_SHARED, file, 0);
  if (told == MAP_FAILED) die("told");
  int place = starts(kind, "memory") ? GROWTHS : starts(kind, "read-") || starts(kind, "short-r") ? READS : starts(kind, "thread") ? THREADS : WRITES;
  set("LD_PRELOAD", library); set("DUMP", dump); set("TELL", tell);
  if (starts(kind, "write-")) set("SHORT_WRITES", "61");
  struct terms terms = { NULL, given, 0, 60 };
  for (char **word = words; *word; word++) if (!strcmp(*word, "-")) terms.input = dump;
  struct ended whole = run(words, &terms);
  if (!starts(kind, "short")) {
    snprintf(value, sizeof value, "%d", starts(kind, "read-") ? error_of(kind + 5) : starts(kind, "write-") ? error_of(kind + 6) : 0);
    set(place == READS ? "READ_ERROR" : "WRITE_ERROR", value);
  }
  if (strstr(kind, "-on")) set("ON", "1");
  int gone = !strcmp(kind, "write-EPIPE"), test = !strcmp(kind, "memory-test");
  snprintf(line, sizeof line, test ? "the test failed: its result gives status 1" : place == READS ? "read failed: file %s" : place == WRITES ? "write failed" : "no memory", number);
  long runs = 0, met = 0, failed = 0, most = told[place], missed = 0;
  if (whole.status > 1) { runs++; failed++; printf("%s:", kind); print_words(stdout, words + 1); printf(": status %d without a failure\n", whole.status); }
  char *which = set(place == READS ? "FAIL_READ" : place == WRITES ? "FAIL_WRITE" : place == THREADS ? "FAIL_THREAD" : "REFUSE", "0");
  if (starts(kind, "short")) strcpy(which, place == READS ? "SHORT_READS=1" : "SHORT_WRITES=1");
  for (long at = 1; missed < 2; at += at < 100 ? 1 : step) {
    if (!starts(kind, "short")) sprintf(strchr(which, '=') + 1, "%ld", at);
    memset(told, 0, 64);
    struct ended ended = run(words, &terms);
    int shorter = starts(kind, "short"), hit = told[place + 1] > 0, same = 0, good;
    int stopped = test ? ended.status == 101 && ends_with(&ended.err, line) : ended.status == 3 && (gone ? !ended.err.length : says(&ended.err, line));
    same = ended.status == whole.status && is_same(&ended.out, &whole.out) && is_same(&ended.err, &whole.err);
    if (shorter) good = same && told[place] > most && (place == READS || told[place] >= (long) whole.out.length);
    else if (!hit || place == THREADS) good = same;
    else if (place == READS) good = stopped && !ended.out.length;
    else if (place == WRITES) good = stopped && is_front(&ended.out, &whole.out) && ended.out.length < whole.out.length;
    else good = same || (stopped && !ended.out.length);
    if (told[place] > most) most = told[place];
    runs++; met += shorter ? good : place == THREADS ? hit : hit && (test ? same : stopped); missed = hit ? 0 : missed + 1;
    if (!good) {
      failed++; printf("%s %ld:", kind, at); print_words(stdout, words + 1);
      printf(": status %d, %zu bytes, said: ", ended.status, ended.out.length); print_first_line(stdout, &ended.err); printf("\n");
    }
    let_go(&ended);
    if (shorter) break;
  }
  if (!met && (most || place != THREADS)) { runs++; failed++; printf("%s:", kind); print_words(stdout, words + 1); printf(": no failure reached the program\n"); }
  unlink(tell);
  printf("tried %ld %ld %ld %ld %s", runs, met, failed, most, kind); print_words(stdout, words + 1); printf("\n");
  return failed != 0;
}
