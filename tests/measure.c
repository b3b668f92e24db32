/* Runs a program several times, and prints one line: its status, the least processor time of a run in seconds, the greatest
   memory that one held in kilobytes, how many bytes it wrote, and a sum of these bytes. The runs must agree in status and bytes.
     measure RUNS SECONDS PROGRAM WORDS..
   SECONDS is the processor time after which a run is ended (status 152); ten times that by the clock ends it too (status 1000).
   cc -O2 -o measure measure.c */
#include "run.h"

struct heard { uint64_t sum, bytes; };

/* Reads all that comes, without keeping it, since what this program holds counts for its child. */
static void hear(int from, struct heard *heard, double end, pid_t child, int *hung) {
  static unsigned char some[1 << 16]; struct pollfd one = { from, POLLIN, 0 };
  for (;;) {
    int left = (int) ((end - now()) * 1000);
    if (left <= 0 && !*hung) { *hung = 1; kill(child, SIGKILL); }
    if (poll(&one, 1, left > 0 ? left : 5000) <= 0) { if (*hung) return; continue; }
    ssize_t n = read(from, some, sizeof some);
    if (n <= 0) return;
    for (ssize_t i = 0; i < n; i++) heard->sum = (heard->sum ^ some[i]) * 0x100000001B3ull;
    heard->bytes += (uint64_t) n;
  }
}

int main(int n, char **words) {
  if (n < 4) { fprintf(stderr, "measure RUNS SECONDS PROGRAM WORDS..\n"); return 2; }
  long runs = atol(words[1]), peak = 0; double least = 1e9, seconds = atof(words[2]); int first = -1; struct heard whole = {0};
  for (long i = 0; i < runs; i++) {
    int out[2], state, hung = 0; struct rusage usage; struct heard heard = { 0xCBF29CE484222325ull, 0 };
    if (pipe2(out, O_CLOEXEC)) die("pipe");
    pid_t child = fork();
    if (child < 0) die("fork");
    if (!child) {
      int none = open("/dev/null", O_RDWR); dup2(none, 0); dup2(none, 2); dup2(out[1], 1);
      struct rlimit limit = { (rlim_t) seconds, (rlim_t) seconds + 2 }; setrlimit(RLIMIT_CPU, &limit); execv(words[3], words + 3); _exit(127);
    }
    close(out[1]);
    hear(out[0], &heard, now() + 10 * seconds, child, &hung);
    close(out[0]);
    while (wait4(child, &state, 0, &usage) < 0) if (errno != EINTR) die("wait");
    int status = hung ? HANGS : WIFEXITED(state) ? WEXITSTATUS(state) : 128 + WTERMSIG(state);
    double took = usage.ru_utime.tv_sec + usage.ru_stime.tv_sec + (usage.ru_utime.tv_usec + usage.ru_stime.tv_usec) / 1e6;
    if (took < least) least = took;
    if (usage.ru_maxrss > peak) peak = usage.ru_maxrss;
    if (first < 0) { first = status; whole = heard; }
    if (status != first || heard.sum != whole.sum || heard.bytes != whole.bytes) { fprintf(stderr, "run %ld: another status or other bytes\n", i + 1); return 1; }
    if (status > 127) break;
  }
  printf("%d %.3f %ld %llu %016llx\n", first, least, peak, (unsigned long long) whole.bytes, (unsigned long long) whole.sum);
  return 0;
}
