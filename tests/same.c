/* Runs all nine reports on dumps, by several numbers of workers and sizes of rings, and compares what they write. Options of every run, as
   --family ipv6, can stand behind the dumps.
     same [-w N,N..] [-r N,N..] [-p SEED] [-b LIBRARY] [-v MEGABYTES] [-m MEGABYTES] PROGRAM DUMP..
   The first run of a report has one worker and a ring of 65,536. Its status must be 0 with nothing on standard error, or 1 with `damaged: N`, where N is
   the number of lines of `faults`; never a signal. Each run by workers of -w and rings of -r must give the same bytes and status.
     -p SEED     for each report one of these pairs, which the seed draws, and not all
     -b LIBRARY  one run of a report (with -p), or of each, reads one byte at a time (LIBRARY is refuse.c's)
     -v, -m      the address space that a run may take, and the memory at most that it may have taken, in megabytes
   Prints a line for each run that failed, and then `tried RUNS FAILED DUMPS`. */
#include "run.h"

static char *reports[] = { "tables", "visibility", "origins", "churn", "faults", "match", "seen", "peers", "history" };
enum { REPORTS = 9, MOST = 16 };
static char address[48] = "10.0.0.1";
static long runs, failed;

static int numbers_of(char *text, char **to) {
  int n = 0;
  for (char *one = strtok(text, ","); one && n < MOST; one = strtok(NULL, ",")) to[n++] = one;
  return n;
}

static uint64_t mixed(uint64_t z) {
  z += 0x9E3779B97F4A7C15ull; z = (z ^ (z >> 30)) * 0xBF58476D1CE4E5B9ull; z = (z ^ (z >> 27)) * 0x94D049BB133111EBull;
  return z ^ (z >> 31);
}

/* The words of a run. */
static void word(char **words, char *program, int report, char *workers, char *ring, char **dumps) {
  int n = 0;
  words[n++] = program; words[n++] = reports[report];
  if (report == 5) { words[n++] = "--address"; words[n++] = address; }
  words[n++] = "--workers"; words[n++] = workers; words[n++] = "--ring"; words[n++] = ring;
  while (*dumps && n < 60) words[n++] = *dumps++;
  words[n] = NULL;
}

static void failure(char **words, const char *why, const struct ended *ended) {
  failed++;
  print_words(stdout, words + 1);
  printf(": %s: status %d, %zu bytes, said: ", why, ended->status, ended->out.length);
  print_first_line(stdout, &ended->err); printf("\n");
}

/* The address that is matched where no prefix is listed: of the family that is asked for. */
static void first_address(char **dumps) {
  for (; *dumps; dumps++) if (!strcmp(*dumps, "--family") && dumps[1] && !strcmp(dumps[1], "ipv6")) strcpy(address, "2001:db8::1");
}

/* An address of one of the prefixes in a report on visibility. */
static void draw_address(const struct written *out, uint64_t seed) {
  size_t at = out->length ? mixed(seed) % out->length : 0, n = 0;
  while (at > 0 && out->bytes[at - 1] != '\n') at--;
  while (at + n < out->length && out->bytes[at + n] != '/' && n < 40) n++;
  if (at + n < out->length && out->bytes[at + n] == '/') snprintf(address, sizeof address, "%.*s", (int) n, out->bytes + at);
}

static long lines_of(const struct written *out) { long n = 0; for (size_t i = 0; i < out->length; i++) n += out->bytes[i] == '\n'; return n; }

int main(int n, char **given) {
  char *workers[MOST] = { "1", "4" }, *rings[MOST] = { "1", "1024" }, *library = NULL, *words[64], line[64], preload[4200], *settings[] = { preload, NULL, "SHORT_READS=1", NULL };
  int some_workers = 2, some_rings = 2, drawn = 0, option; uint64_t seed = 1; long most = 0; struct terms terms = {0};
  while ((option = getopt(n, given, "+w:r:p:b:v:m:")) > 0) switch (option) {
    case 'w': some_workers = numbers_of(optarg, workers); break;
    case 'r': some_rings = numbers_of(optarg, rings); break;
    case 'p': drawn = 1; seed = strtoull(optarg, NULL, 10); break;
    case 'b': library = optarg; break;
    case 'v': terms.address_space = (rlim_t) atol(optarg) << 20; break;
    case 'm': most = atol(optarg) << 10; break;
    default: return 2;
  }
  if (n - optind < 2) { fprintf(stderr, "same [-w N,N..] [-r N,N..] [-p SEED] [-b LIBRARY] [-v MEGABYTES] [-m MEGABYTES] PROGRAM DUMP..\n"); return 2; }
  char *program = given[optind], **dumps = given + optind + 1;
  struct ended whole[REPORTS]; long damaged = -1;
  terms.seconds = 120; first_address(dumps);
  for (int report = 0; report < REPORTS; report++) {
    word(words, program, report, "1", "65536", dumps);
    whole[report] = run(words, &terms); runs++;
    const struct ended *one = &whole[report];
    if (report == 1) draw_address(&one->out, seed);
    long said = one->status == 1 && one->err.length > 9 && !strncmp(one->err.bytes, "damaged: ", 9) ? strtol(one->err.bytes + 9, NULL, 10) : 0;
    snprintf(line, sizeof line, "damaged: %ld", said);
    if (one->status == 0 ? one->err.length != 0 : one->status != 1 || said == 0 || !says(&one->err, line)) failure(words, "not a whole report", one);
    else if (damaged >= 0 && said != damaged) failure(words, "another number of damaged records", one);
    else if (report == 4 && lines_of(&one->out) != said) failure(words, "another number of faults", one);
    else if (most && one->peak_kilobytes > most) { failure(words, "more memory", one); printf("  %ld kilobytes\n", one->peak_kilobytes); }
    if (damaged < 0) damaged = said;
  }
  for (int report = 0; report < REPORTS; report++) {
    int pairs = some_workers * some_rings, only = drawn ? (int) (mixed(seed * 8 + (uint64_t) report) % (uint64_t) pairs) : -1;
    for (int pair = 0; pair < pairs; pair++) {
      if (only >= 0 && pair != only) continue;
      word(words, program, report, workers[pair / some_rings], rings[pair % some_rings], dumps);
      struct ended ended = run(words, &terms); runs++;
      if (ended.status != whole[report].status || !is_same(&ended.out, &whole[report].out) || !is_same(&ended.err, &whole[report].err)) failure(words, "not the same", &ended);
      let_go(&ended);
    }
    if (!library || (drawn && (int) (mixed(seed) % REPORTS) != report)) continue;
    snprintf(preload, sizeof preload, "LD_PRELOAD=%s", library);
    char dump[4200]; snprintf(dump, sizeof dump, "DUMP=%s", dumps[0]);
    settings[1] = dump; settings[2] = "SHORT_READS=1"; terms.settings = settings;
    word(words, program, report, seed % 2 ? "1" : "4", "1024", dumps);
    struct ended ended = run(words, &terms); runs++;
    if (ended.status != whole[report].status || !is_same(&ended.out, &whole[report].out) || !is_same(&ended.err, &whole[report].err)) failure(words, "not the same by one byte a read", &ended);
    let_go(&ended); terms.settings = NULL;
  }
  printf("tried %ld %ld", runs, failed); print_words(stdout, dumps); printf("\n");
  return failed != 0;
}
