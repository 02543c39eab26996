/* Drives a CECP adapter over an engine that answers at once, and measures it.
 *
 * usage: driver ROUNDS TIMES PROGRAM ARG..
 *
 * Prints one line: start (from fork to `done=1`), usermove to go, bestmove to move and usermove to
 * move as median and 99th percentile in microseconds, thinking lines a second, the most memory in
 * kB, and processor milliseconds of one idle second. TIMES is the file that the engine writes.
 * With 0 rounds it prints the start in microseconds, and nothing else is measured.
 */
#include <poll.h>
#include <signal.h>
#include <stdio.h>
#include <stdlib.h>
#include <string.h>
#include <sys/wait.h>
#include <time.h>
#include <unistd.h>

static int to, from;
static char buffer[1 << 16];
static size_t begin, end;

static long now(void) {
  struct timespec t;
  clock_gettime(CLOCK_MONOTONIC, &t);
  return t.tv_sec * 1000000000L + t.tv_nsec;
}

static void fail(const char *what) {
  fprintf(stderr, "driver: %s\n", what);
  exit(1);
}

static void say(const char *text) {
  if (write(to, text, strlen(text)) != (ssize_t)strlen(text)) fail("the adapter takes nothing");
}

/* the next line, without its line feed */
static char *hear(void) {
  for (;;) {
    char *feed = memchr(buffer + begin, '\n', end - begin);
    if (feed) {
      char *line = buffer + begin;
      *feed = 0;
      begin = feed + 1 - buffer;
      return line;
    }
    memmove(buffer, buffer + begin, end - begin);
    end -= begin;
    begin = 0;
    struct pollfd wait = {from, POLLIN, 0};
    if (poll(&wait, 1, 20000) <= 0) fail("the adapter is silent for 20 seconds");
    ssize_t n = read(from, buffer + end, sizeof buffer - end);
    if (n <= 0) fail("the adapter ended");
    end += n;
  }
}

/* lines until one begins so; how many there were that begin with a digit or a blank */
static int hear_until(const char *front) {
  int thinking = 0;
  for (;;) {
    char *line = hear();
    if (!strncmp(line, front, strlen(front))) return thinking;
    if (strspn(line, " \t0123456789")) thinking++;
  }
}

static int by_size(const void *a, const void *b) {
  long x = *(const long *)a, y = *(const long *)b;
  return x < y ? -1 : x > y;
}

static void put(const char *name, long *values, int n) {
  qsort(values, n, sizeof *values, by_size);
  printf(" %s %.1f/%.1f", name, values[n / 2] / 1e3, values[n * 99 / 100] / 1e3);
}

static long ticks_of(pid_t pid) {
  char name[64], text[1024];
  snprintf(name, sizeof name, "/proc/%d/stat", pid);
  FILE *file = fopen(name, "r");
  if (!file) return 0;
  size_t n = fread(text, 1, sizeof text - 1, file);
  text[n] = 0;
  fclose(file);
  long user = 0, system = 0;
  char *at = strrchr(text, ')');
  if (at) sscanf(at + 2, "%*c %*d %*d %*d %*d %*d %*u %*u %*u %*u %*u %ld %ld", &user, &system);
  return user + system;
}

static long memory_of(pid_t pid) {
  char name[64], line[256];
  long kilobytes = 0;
  snprintf(name, sizeof name, "/proc/%d/status", pid);
  FILE *file = fopen(name, "r");
  if (!file) return 0;
  while (fgets(line, sizeof line, file)) sscanf(line, "VmHWM: %ld", &kilobytes);
  fclose(file);
  return kilobytes;
}

int main(int argc, char **argv) {
  static const char *moves[] = {"usermove g1f3\n", "usermove b1c3\n", "usermove f3g1\n",
                                "usermove c3b1\n"};
  if (argc < 4) fail("usage: driver ROUNDS TIMES PROGRAM ARG..");
  int rounds = atoi(argv[1]);
  long *sent = calloc(rounds, sizeof *sent), *got = calloc(rounds, sizeof *got);
  int in[2], out[2];
  signal(SIGPIPE, SIG_IGN);
  if (!sent || !got || pipe(in) || pipe(out)) fail("no memory or no pipe");
  setenv("TIMES", argv[2], 1);
  long started = now();
  pid_t pid = fork();
  if (pid == 0) {
    dup2(in[0], 0);
    dup2(out[1], 1);
    close(in[0]), close(in[1]), close(out[0]), close(out[1]);
    execvp(argv[3], argv + 3);
    _exit(127);
  }
  close(in[0]), close(out[1]);
  to = in[1], from = out[0];
  say("xboard\nprotover 2\n");
  for (char *line = hear(); !strstr(line, "done=1"); line = hear()) {}
  long ready = now();
  if (rounds == 0) {
    printf("%.1f\n", (ready - started) / 1e3);
    say("quit\n");
    close(to);
    waitpid(pid, NULL, 0);
    return 0;
  }
  say("new\nlevel 0 5 0\npost\nping 1\n");
  hear_until("pong 1");
  int thinking = 0;
  long busy = 0;
  for (int i = 0; i < rounds; i++) {
    if (i > 0 && i % 7 == 0) {
      say("new\nlevel 0 5 0\npost\nping 2\n");
      hear_until("pong 2");
    }
    usleep(1000);
    sent[i] = now();
    say(moves[i % 7 % 4]);
    thinking += hear_until("move ");
    got[i] = now();
    busy += got[i] - sent[i];
  }
  long ticks = ticks_of(pid);
  sleep(1);
  ticks = ticks_of(pid) - ticks;
  long kilobytes = memory_of(pid);
  say("quit\n");
  close(to);
  int status;
  waitpid(pid, &status, 0);
  for (int i = 0; i < 200 && access(argv[2], R_OK); i++) usleep(10000);
  usleep(50000);
  FILE *times = fopen(argv[2], "r");
  if (!times) fail("the engine wrote no times");
  long read, answer;
  long *down = calloc(rounds, sizeof *down);
  long *up = calloc(rounds, sizeof *up);
  long *both = calloc(rounds, sizeof *both);
  int n = 0;
  while (n < rounds && fscanf(times, "%ld %ld", &read, &answer) == 2) {
    down[n] = read - sent[n];
    up[n] = got[n] - answer;
    both[n] = got[n] - sent[n];
    n++;
  }
  if (n < rounds) fail("the engine searched less often than asked");
  printf("start %.1f ms;", (ready - started) / 1e6);
  put("usermove-go", down, n);
  put("bestmove-move", up, n);
  put("usermove-move", both, n);
  printf(" us; thinking lines %.0f a second (%d); memory %ld kB; idle %ld ms\n",
         thinking / (busy / 1e9), thinking, kilobytes, ticks * 10);
  return 0;
}
