/* A UCI engine that answers at once, for measuring what stands between it and an interface.
 *
 * It plays both knights out and home again as Black: `go` is answered by the reply to the ply
 * number of the last `position` order. Beside that it writes the times at which it read `go` and
 * wrote `bestmove`, in nanoseconds of the monotonic clock, to the file of $TIMES at its end.
 * With $INFOS=N it writes N thinking lines before each answer.
 */
#include <stdio.h>
#include <stdlib.h>
#include <string.h>
#include <time.h>
#include <unistd.h>

enum { MOST = 1 << 20 };
static long reads[MOST], answers[MOST];
static int count;

static long now(void) {
  struct timespec t;
  clock_gettime(CLOCK_MONOTONIC, &t);
  return t.tv_sec * 1000000000L + t.tv_nsec;
}

static void say(const char *text) {
  size_t left = strlen(text);
  while (left > 0) {
    ssize_t n = write(1, text, left);
    if (n <= 0) exit(1);
    text += n;
    left -= n;
  }
}

int main(void) {
  static const char *replies[] = {"bestmove g8f6\n", "bestmove b8c6\n", "bestmove f6g8\n",
                                  "bestmove c6b8\n"};
  static char line[1 << 17];
  int infos = getenv("INFOS") ? atoi(getenv("INFOS")) : 0;
  int plies = 0;
  setvbuf(stdin, NULL, _IOFBF, 1 << 16);
  while (fgets(line, sizeof line, stdin)) {
    if (!strncmp(line, "go", 2)) {
      long read = now();
      char info[160];
      for (int i = 0; i < infos; i++) {
        snprintf(info, sizeof info,
                 "info depth %d score cp %d time %d nodes %d pv g8f6 b1c3 b8c6\n",
                 i % 60 + 1, i % 90, i, i * 100);
        say(info);
      }
      long answer = now();
      say(replies[(plies / 2) % 4]);
      if (count < MOST) {
        reads[count] = read;
        answers[count++] = answer;
      }
    } else if (!strncmp(line, "position", 8)) {
      char *moves = strstr(line, " moves ");
      plies = 0;
      if (moves)
        for (char *at = moves + 6; *at; at++)
          if (*at == ' ') plies++;
    } else if (!strncmp(line, "uci", 3) && (line[3] == '\n' || line[3] == '\r')) {
      say("id name Knights\nid author none\noption name Ponder type check default false\nuciok\n");
    } else if (!strncmp(line, "isready", 7)) {
      say("readyok\n");
    } else if (!strncmp(line, "quit", 4)) {
      break;
    }
  }
  if (getenv("TIMES")) {
    FILE *times = fopen(getenv("TIMES"), "w");
    if (!times) return 1;
    for (int i = 0; i < count; i++) fprintf(times, "%ld %ld\n", reads[i], answers[i]);
    fclose(times);
  }
  return 0;
}
