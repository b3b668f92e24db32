/* Runs a program once and tells how it ended, what it wrote and what it took. */
#ifndef RUN_H
#define RUN_H
#define _GNU_SOURCE
#include <errno.h>
#include <fcntl.h>
#include <poll.h>
#include <signal.h>
#include <stdint.h>
#include <stdio.h>
#include <stdlib.h>
#include <string.h>
#include <sys/mman.h>
#include <sys/resource.h>
#include <sys/stat.h>
#include <sys/wait.h>
#include <time.h>
#include <unistd.h>

/* A status of 128 + S is an end by the signal S, HANGS one after the seconds that were given. */
enum { HANGS = 1000 };

struct written { char *bytes; size_t length, room; };
struct ended { int status; struct written out, err; double seconds; long peak_kilobytes; };

/* What a run may take, and what it is given beside its words. */
struct terms { const char *input; char **settings; rlim_t address_space; double seconds; };

static inline void die(const char *what) { perror(what); exit(2); }

static inline void take_bytes(int from, struct written *to, int *open) {
  if (to->room - to->length < 65536) {
    to->room = to->room * 2 + 131072;
    if (!(to->bytes = realloc(to->bytes, to->room))) die("memory");
  }
  ssize_t some = read(from, to->bytes + to->length, to->room - to->length);
  if (some > 0) to->length += some;
  else if (some == 0 || errno != EINTR) { close(from); *open = 0; }
}

static inline double now(void) { struct timespec t; clock_gettime(CLOCK_MONOTONIC, &t); return t.tv_sec + t.tv_nsec / 1e9; }

static inline void become(char **words, const struct terms *terms, int out, int err) {
  int input = open(terms->input ? terms->input : "/dev/null", O_RDONLY);
  if (input < 0) _exit(127);
  dup2(input, 0); dup2(out, 1); dup2(err, 2);
  for (int other = 3; other < 16; other++) close(other);
  if (terms->address_space) { struct rlimit limit = { terms->address_space, terms->address_space }; setrlimit(RLIMIT_AS, &limit); }
  for (char **setting = terms->settings; setting && *setting; setting++) putenv(*setting);
  execv(words[0], words);
  _exit(127);
}

static inline struct ended run(char **words, const struct terms *terms) {
  struct ended ended = {0}; int out[2], err[2], state; struct rusage usage;
  if (pipe2(out, O_CLOEXEC) || pipe2(err, O_CLOEXEC)) die("pipe");
  pid_t child = fork();
  if (child < 0) die("fork");
  if (!child) become(words, terms, out[1], err[1]);
  close(out[1]); close(err[1]);
  int out_open = 1, err_open = 1, hung = 0; double end = now() + (terms->seconds ? terms->seconds : 60);
  while (out_open || err_open) {
    struct pollfd ends[2] = { { out_open ? out[0] : -1, POLLIN, 0 }, { err_open ? err[0] : -1, POLLIN, 0 } };
    int left = (int) ((end - now()) * 1000);
    if (left <= 0) {
      if (hung) break;
      hung = 1; kill(child, SIGKILL); end = now() + 5; continue;
    }
    if (poll(ends, 2, left) < 0) continue;
    if (ends[0].revents) take_bytes(out[0], &ended.out, &out_open);
    if (ends[1].revents) take_bytes(err[0], &ended.err, &err_open);
  }
  if (out_open) close(out[0]);
  if (err_open) close(err[0]);
  while (wait4(child, &state, 0, &usage) < 0) if (errno != EINTR) die("wait");
  ended.status = hung ? HANGS : WIFEXITED(state) ? WEXITSTATUS(state) : 128 + WTERMSIG(state);
  ended.seconds = usage.ru_utime.tv_sec + usage.ru_stime.tv_sec + (usage.ru_utime.tv_usec + usage.ru_stime.tv_usec) / 1e6;
  ended.peak_kilobytes = usage.ru_maxrss;
  return ended;
}

static inline void let_go(struct ended *ended) { free(ended->out.bytes); free(ended->err.bytes); memset(ended, 0, sizeof *ended); }

static inline int is_same(const struct written *a, const struct written *b) {
  return a->length == b->length && (!a->length || !memcmp(a->bytes, b->bytes, a->length));
}

static inline int is_front(const struct written *front, const struct written *whole) {
  return front->length <= whole->length && (!front->length || !memcmp(front->bytes, whole->bytes, front->length));
}

/* Whether the first line is this one, and each further line begins with two spaces. */
static inline int says(const struct written *said, const char *line) {
  size_t n = strlen(line);
  if (said->length <= n || memcmp(said->bytes, line, n) || said->bytes[n] != '\n') return 0;
  for (size_t i = n + 1; i < said->length; ) {
    if (said->length - i < 3 || said->bytes[i] != ' ' || said->bytes[i + 1] != ' ') return 0;
    char *next = memchr(said->bytes + i, '\n', said->length - i);
    if (!next) return 0;
    i = (size_t) (next - said->bytes) + 1;
  }
  return 1;
}

/* Whether the last line is this one. */
static inline int ends_with(const struct written *said, const char *line) {
  size_t n = strlen(line);
  if (said->length <= n || said->bytes[said->length - 1] != '\n' || memcmp(said->bytes + said->length - n - 1, line, n)) return 0;
  return said->length == n + 1 || said->bytes[said->length - n - 2] == '\n';
}

static inline void print_words(FILE *to, char **words) { for (; *words; words++) fprintf(to, " %s", *words); }

/* The first line of what was said, for a report. */
static inline void print_first_line(FILE *to, const struct written *said) {
  size_t n = 0;
  while (n < said->length && n < 200 && said->bytes[n] != '\n') n++;
  fprintf(to, "%.*s", (int) n, said->bytes ? said->bytes : "");
}
#endif
