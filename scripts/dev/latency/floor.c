/* The least that can stand between an interface and an engine: it hands on what driver.c and
 * engine.c say, and checks nothing. What an adapter takes beyond it is its own work.
 *
 * usage: floor channel|direct|relay-channel|relay-direct ENGINE ARG..
 *
 * Two threads read the peers. With `channel` they put each line into one channel of 64 lines, and
 * the main thread takes it and writes, as in the bridge. With `direct` the thread that reads writes
 * too, under one lock, as in UCI2WB. With `relay-` each line goes on as it came: that is the least
 * that can stand between a bridge and an engine, as reviver does.
 */
#include <pthread.h>
#include <spawn.h>
#include <stdio.h>
#include <stdlib.h>
#include <string.h>
#include <sys/wait.h>
#include <unistd.h>

extern char **environ;

enum { ROOM = 64, LONGEST = 1 << 12 };
enum peer { IFACE, ENGINE };

struct line {
  enum peer peer;
  char text[LONGEST]; /* empty at the peer's end */
};

static struct line channel[ROOM];
static unsigned taken, put;
static pthread_mutex_t lock = PTHREAD_MUTEX_INITIALIZER;
static pthread_cond_t filled = PTHREAD_COND_INITIALIZER, emptied = PTHREAD_COND_INITIALIZER;
static int is_direct, is_relay, to_engine, from_engine;
static char moves[1 << 16];

static void say(int to, const char *text) {
  if (write(to, text, strlen(text)) != (ssize_t)strlen(text)) exit(1);
}

/* what is written for a line */
static void answer(const struct line *line) {
  static char text[sizeof moves + 64];
  const char *word = line->text;
  if (is_relay) {
    say(line->peer == IFACE ? to_engine : 1, word);
  } else if (line->peer == IFACE && !strncmp(word, "protover", 8)) {
    say(to_engine, "uci\n");
  } else if (line->peer == IFACE && !strncmp(word, "new", 3)) {
    moves[0] = 0;
  } else if (line->peer == IFACE && !strncmp(word, "ping ", 5)) {
    snprintf(text, sizeof text, "pong %s", word + 5);
    say(1, text);
  } else if (line->peer == IFACE && !strncmp(word, "usermove ", 9)) {
    snprintf(moves + strlen(moves), 8, " %.*s", (int)strcspn(word + 9, "\n"), word + 9);
    snprintf(text, sizeof text, "position startpos moves%s\ngo movetime 1\n", moves);
    say(to_engine, text);
  } else if (line->peer == ENGINE && !strncmp(word, "uciok", 5)) {
    say(1, "feature done=1\n");
  } else if (line->peer == ENGINE && !strncmp(word, "info", 4)) {
    snprintf(text, sizeof text, " %s", word);
    say(1, text);
  } else if (line->peer == ENGINE && !strncmp(word, "bestmove ", 9)) {
    snprintf(moves + strlen(moves), 8, " %.*s", (int)strcspn(word + 9, "\n"), word + 9);
    snprintf(text, sizeof text, "move %s", word + 9);
    say(1, text);
  }
}

/* hands a line on, or answers it at once */
static void send_line(enum peer peer, const char *text) {
  struct line line = {.peer = peer};
  snprintf(line.text, sizeof line.text, "%s", text);
  pthread_mutex_lock(&lock);
  if (is_direct) {
    answer(&line);
  } else {
    while (put - taken == ROOM) pthread_cond_wait(&emptied, &lock);
    struct line *to = &channel[put++ % ROOM];
    to->peer = peer;
    strcpy(to->text, line.text);
    pthread_cond_signal(&filled);
  }
  pthread_mutex_unlock(&lock);
}

static void read_peer(enum peer peer, int from) {
  static __thread char buffer[1 << 16], text[LONGEST];
  size_t length = 0;
  for (ssize_t got; (got = read(from, buffer, sizeof buffer)) > 0;) {
    for (ssize_t i = 0; i < got; i++) {
      if (length + 2 < sizeof text) text[length++] = buffer[i];
      if (buffer[i] == '\n') {
        text[length] = 0;
        length = 0;
        send_line(peer, text);
      }
    }
  }
  send_line(peer, "");
}

static void *read_engine(void *unused) {
  read_peer(ENGINE, from_engine);
  return unused;
}

static void *read_iface(void *unused) {
  read_peer(IFACE, 0);
  return unused;
}

static pid_t start(char **words) {
  int in[2], out[2];
  pid_t pid;
  posix_spawn_file_actions_t streams;
  if (pipe(in) || pipe(out)) exit(1);
  posix_spawn_file_actions_init(&streams);
  posix_spawn_file_actions_adddup2(&streams, in[0], 0);
  posix_spawn_file_actions_adddup2(&streams, out[1], 1);
  for (int i = 0; i < 2; i++) {
    posix_spawn_file_actions_addclose(&streams, in[i]);
    posix_spawn_file_actions_addclose(&streams, out[i]);
  }
  if (posix_spawnp(&pid, words[0], &streams, NULL, words, environ)) exit(1);
  close(in[0]), close(out[1]);
  to_engine = in[1], from_engine = out[0];
  return pid;
}

int main(int argc, char **argv) {
  if (argc < 3) return 2;
  is_relay = !strncmp(argv[1], "relay-", 6);
  is_direct = !strcmp(argv[1] + 6 * is_relay, "direct");
  pid_t pid = start(argv + 2);
  pthread_t iface, engine;
  if (pthread_create(&engine, NULL, read_engine, NULL)) return 1;
  if (is_direct) {
    read_iface(NULL);
  } else {
    if (pthread_create(&iface, NULL, read_iface, NULL)) return 1;
    for (int ended = 0; !ended;) {
      pthread_mutex_lock(&lock);
      while (put == taken) pthread_cond_wait(&filled, &lock);
      struct line line = channel[taken++ % ROOM];
      pthread_cond_signal(&emptied);
      pthread_mutex_unlock(&lock);
      ended = line.peer == IFACE && !line.text[0];
      answer(&line);
    }
  }
  close(to_engine);
  waitpid(pid, NULL, 0);
  return 0;
}
