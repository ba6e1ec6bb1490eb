// Sessions with a server over TCP. Each thread holds one session, sends requests, waits for the
// replies and checks each of them. The program prints for each kind of request how many replies a
// second came, and the 50th, 99th and 99.9th percentile and the greatest of their times in
// microseconds. Its status is 1 where a reply was not the one that its request asks for, was a
// refusal, or where a session ended early; 2 for words that can't be read.
//
//     load ADDRESS PORT [--sessions N] [--seconds S] [--mix KIND=WEIGHT,..] [--rate R] [--window W] [--rows N] [--made N] [--seed N] [--series FILE] [--every S]
//
// `tools/pathd-tools load` compiles and runs it, and says what each option is. Two kinds are for
// measurements of the server itself: `echo` is the smallest request, which an echo server gives
// back, and `connect` has each request, the smallest, in a session of its own, from the addresses
// 127.0.0.2 to 127.0.0.201 in turn.
#define _GNU_SOURCE
#include <arpa/inet.h>
#include <netinet/in.h>
#include <netinet/tcp.h>
#include <pthread.h>
#include <signal.h>
#include <stdint.h>
#include <stdio.h>
#include <stdlib.h>
#include <string.h>
#include <sys/socket.h>
#include <time.h>
#include <unistd.h>

enum { MOST_SESSIONS = 256, MOST_WINDOW = 128, MOST_ROWS = 1 << 24, MOST_MADE = 250000000, SEGMENT = 88, IN_A_REGISTRATION = 16, ONE = 13 + SEGMENT, MOST_FRAME = 2048 };
enum { LOOKUP, REGISTER, FRESH, PURGE, REMOVE, ECHO, CONNECT, KINDS };
// The reason of a refusal: no session more may be open.
enum { NO_ROOM = 0x61 };
static const char *const names[KINDS] = {"lookup", "register", "fresh", "purge", "remove", "echo", "connect"};

// A segment of two entries, from 1-ff00:0:110 to an AS that is set for each row, as is its
// timestamp, a varint of five bytes from 4,000,000,000 on.
static const unsigned char worked_segment[SEGMENT] = {
    0x0a, 0x08, 0x08, 0x80, 0xd0, 0xac, 0xf3, 0x0e, 0x10, 0x07, 0x12, 0x29, 0x0a, 0x27, 0x0a, 0x25, 0x12, 0x23, 0x08, 0x90, 0x82, 0x80,
    0x80, 0x80, 0xe0, 0x7f, 0x10, 0x91, 0x82, 0x80, 0x80, 0x80, 0xe0, 0x7f, 0x1a, 0x0e, 0x0a, 0x0c, 0x10, 0x01, 0x18, 0x3f, 0x22, 0x06,
    0x01, 0x02, 0x03, 0x04, 0x05, 0x06, 0x28, 0xc0, 0x0b, 0x12, 0x21, 0x0a, 0x1f, 0x0a, 0x1d, 0x12, 0x1b, 0x08, 0x91, 0x82, 0x80, 0x80,
    0x80, 0xe0, 0x7f, 0x1a, 0x0e, 0x0a, 0x0c, 0x08, 0x02, 0x18, 0x3f, 0x22, 0x06, 0x0a, 0x0b, 0x0c, 0x0d, 0x0e, 0x0f, 0x28, 0xc0, 0x0b};
enum { TIMESTAMP = 3, NEXT_AS = 27, LAST_AS = 62 };
static const uint64_t FIRST_MADE = 4000000000u, FIRST_AS = 0x0001ff0000001000u, SOURCE = 0x0001ff0000000110u;

static struct sockaddr_storage server;
static socklen_t server_len;
static int sessions = 8, window = 1, weights[KINDS], all_weights;
static double seconds = 10, rate, every = 0.25;
static uint64_t rows = 1000, seed = 1, first_of_own;
static const char *series;
static pthread_barrier_t filled, start;
static double begun;

// When a reply came after the start, in seconds, and how long it took, in microseconds.
struct sample {
  float at, took;
  uint32_t kind;
};

struct session {
  uint64_t number, random, place, made, count[KINDS], wrong[KINDS], refused[KINDS], samples_len, samples_room;
  struct sample *samples;
  int fd, ended_early;
  size_t from, to;
  unsigned char in[1 << 16];
};

static double now(void) {
  struct timespec t;
  clock_gettime(CLOCK_MONOTONIC, &t);
  return t.tv_sec + t.tv_nsec * 1e-9;
}

static void die(const char *what) {
  perror(what);
  exit(2);
}

// Connections

static int connected_from(uint32_t number) { // from a loopback address of this number, or from any where it is 0
  int fd = socket(server.ss_family, SOCK_STREAM, 0), one = 1;
  if (number > 0) {
    struct sockaddr_in from = {.sin_family = AF_INET, .sin_addr.s_addr = htonl(INADDR_LOOPBACK + number)};
    setsockopt(fd, IPPROTO_IP, IP_BIND_ADDRESS_NO_PORT, &one, sizeof one);
    if (bind(fd, (struct sockaddr *)&from, sizeof from) < 0) die("bind");
  }
  if (fd < 0 || connect(fd, (struct sockaddr *)&server, server_len) < 0) die("connect");
  setsockopt(fd, IPPROTO_TCP, TCP_NODELAY, &one, sizeof one);
  return fd;
}

static int send_all(int fd, const unsigned char *bytes, size_t len) {
  while (len > 0) {
    ssize_t n = write(fd, bytes, len);
    if (n <= 0) return 0;
    bytes += n;
    len -= n;
  }
  return 1;
}

// The next bytes of a session's input, up to this number in one piece; NULL where the server has
// ended the session.
static const unsigned char *received(struct session *s, size_t len) {
  if (len > sizeof s->in) return NULL;
  if (s->from + len > sizeof s->in) {
    memmove(s->in, s->in + s->from, s->to - s->from);
    s->to -= s->from;
    s->from = 0;
  }
  while (s->to - s->from < len) {
    ssize_t n = read(s->fd, s->in + s->to, sizeof s->in - s->to);
    if (n <= 0) return NULL;
    s->to += n;
  }
  s->from += len;
  return s->in + s->from - len;
}

// Requests

static size_t put_varint(unsigned char *to, uint64_t number, size_t least) { // with this number of bytes at least
  size_t len = 0;
  do {
    to[len] = (number & 0x7f) | 0x80;
    number >>= 7;
    len++;
  } while (number > 0 || len < least);
  to[len - 1] &= 0x7f;
  return len;
}

static void put_length(unsigned char *frame, size_t len) {
  for (int i = 0; i < 4; i++) frame[i] = (len - 4) >> 8 * (3 - i);
}

static void put_segment(unsigned char *to, uint64_t row, uint64_t made) {
  memcpy(to, worked_segment, SEGMENT);
  put_varint(to + TIMESTAMP, made, 5);
  put_varint(to + NEXT_AS, FIRST_AS + row, 7);
  put_varint(to + LAST_AS, FIRST_AS + row, 7);
}

// A registration of some rows, one after the other, as down segments that were made at this time.
// With another kind it is the answer to a lookup.
static size_t put_rows(unsigned char *frame, int kind, uint64_t first, uint64_t count, uint64_t made) {
  size_t segments = count * (2 + SEGMENT), len = 5;
  unsigned char nothing[10];
  frame[4] = kind;
  frame[len++] = 0x0a;
  len += put_varint(frame + len, 2 + 1 + put_varint(nothing, segments, 1) + segments, 1);
  frame[len++] = 0x08;
  frame[len++] = 0x02;
  frame[len++] = 0x12;
  len += put_varint(frame + len, segments, 1);
  for (uint64_t i = 0; i < count; i++) {
    frame[len++] = 0x0a;
    frame[len++] = SEGMENT;
    put_segment(frame + len, first + i, made);
    len += SEGMENT;
  }
  put_length(frame, len);
  return len;
}

static size_t put_lookup(unsigned char *frame, uint64_t row) {
  size_t len = 5;
  frame[4] = 0x02;
  frame[len++] = 0x08;
  len += put_varint(frame + len, SOURCE, 7);
  frame[len++] = 0x10;
  len += put_varint(frame + len, FIRST_AS + row, 7);
  put_length(frame, len);
  return len;
}

static size_t put_bytes(unsigned char *frame, int kind, int first, size_t body) { // a body of this many bytes, which are 0 after the first
  memset(frame + 5, 0, body);
  if (body > 0) frame[5] = first;
  frame[4] = kind;
  put_length(frame, 5 + body);
  return 5 + body;
}

static uint64_t own_row(const struct session *s) { return rows + s->number; }

// Puts a request of this kind, and the reply that it has to get. Of an acknowledgement only the
// counts are put: its place is checked by itself.
static size_t put_request(struct session *s, int kind, unsigned char *frame, unsigned char *reply, size_t *reply_len) {
  s->random = s->random * 6364136223846793005u + 1442695040888963407u;
  uint64_t row = (s->random >> 33) % rows;
  *reply_len = 29;
  memset(reply, 0, *reply_len);
  switch (kind) {
  case LOOKUP: *reply_len = put_rows(reply, 0x82, row, 1, FIRST_MADE); return put_lookup(frame, row);
  case FRESH: *reply_len = put_rows(reply, 0x82, own_row(s), 1, s->made); return put_lookup(frame, own_row(s));
  case REGISTER: reply[4] = 0x81, reply[20] = 1; return put_rows(frame, 0x01, own_row(s), 1, ++s->made); // the second count: updated
  case PURGE: reply[4] = 0x83; return put_bytes(frame, 0x03, 0, 8); // at a moment at which nothing expires
  case REMOVE: reply[4] = 0x84; return put_bytes(frame, 0x04, 2, 33); // of an id that nothing has
  default: *reply_len = put_bytes(reply, 0x02, 0, 0); return put_bytes(frame, 0x02, 0, 0);
  }
}

// Replies

// Reads the next reply, and counts it as wrong where it isn't the wanted one. Answers whether one
// came.
static int check_reply(struct session *s, int kind, const unsigned char *wanted, size_t len) {
  const unsigned char *head = received(s, 4);
  if (!head) return 0;
  size_t content = (size_t)head[0] << 24 | head[1] << 16 | head[2] << 8 | head[3];
  const unsigned char *got = received(s, content);
  if (!got) return 0;
  int is_right = content == len - 4 && got[0] == wanted[4];
  if (is_right && (kind == REGISTER || kind == PURGE || kind == REMOVE)) {
    uint64_t place = 0;
    for (int i = 0; i < 8; i++) place = place << 8 | got[1 + i];
    is_right = (s->place == UINT64_MAX || place > s->place) && memcmp(got + 9, wanted + 13, 16) == 0;
    s->place = place;
  } else if (is_right) {
    is_right = memcmp(got, wanted + 4, content) == 0;
  }
  if (!is_right && content == 2 && got[0] == 0xff) {
    if (s->refused[kind]++ == 0) fprintf(stderr, "session %lu: a request of the kind %s is refused by 0x%02x\n", s->number, names[kind], got[1]);
  } else if (!is_right) {
    if (s->wrong[kind]++ == 0) fprintf(stderr, "session %lu: a wrong reply of %zu bytes to a request of the kind %s\n", s->number, content, names[kind]);
  }
  s->count[kind]++;
  return 1;
}

static void take(struct session *s, int kind, double from, double to) {
  if (s->samples_len == s->samples_room) {
    s->samples_room = s->samples_room ? 2 * s->samples_room : 1 << 16;
    s->samples = realloc(s->samples, s->samples_room * sizeof *s->samples);
    if (!s->samples) die("memory");
  }
  s->samples[s->samples_len++] = (struct sample){.at = to - begun, .took = (to - from) * 1e6, .kind = kind};
}

// Sessions

// Registers this session's part of the rows that are looked up, and its own row.
static int fill(struct session *s) {
  unsigned char frame[MOST_FRAME];
  uint64_t first = rows * s->number / sessions, end = rows * (s->number + 1) / sessions;
  for (;;) {
    uint64_t count = end - first < IN_A_REGISTRATION ? end - first : IN_A_REGISTRATION;
    int is_last = count == 0;
    size_t len = is_last ? put_rows(frame, 0x01, own_row(s), 1, s->made = FIRST_MADE + first_of_own) : put_rows(frame, 0x01, first, count, FIRST_MADE);
    if (!send_all(s->fd, frame, len)) return 0;
    const unsigned char *reply = received(s, 6);
    if (!reply) return 0;
    if (reply[4] != 0x81) {
      fprintf(stderr, "session %lu: the rows that are to be looked up are refused by 0x%02x\n", s->number, reply[5]);
      return 0;
    }
    if (!received(s, 23)) return 0;
    if (is_last) return 1;
    first += count;
  }
}

static int next_kind(struct session *s) {
  s->random = s->random * 6364136223846793005u + 1442695040888963407u;
  int at = (s->random >> 33) % all_weights, kind = 0;
  for (; at >= weights[kind]; kind++) at -= weights[kind];
  return kind;
}

// Sends requests of one kind at once, and waits for their replies. Answers whether all came.
static int ask(struct session *s, int kind) {
  static __thread unsigned char frames[MOST_WINDOW * MOST_FRAME], replies[MOST_WINDOW][MOST_FRAME];
  size_t lens[MOST_WINDOW], len = 0;
  for (int i = 0; i < window; i++) len += put_request(s, kind, frames + len, replies[i], &lens[i]);
  if (!send_all(s->fd, frames, len)) return 0;
  for (int i = 0; i < window; i++) {
    if (!check_reply(s, kind, replies[i], lens[i])) return 0;
  }
  return 1;
}

// Asks in a session of its own, from the next loopback address. A busy machine may not have ended
// the sessions that were closed, so no room for one more is counted as refused, and isn't wrong.
static int ask_anew(struct session *s) {
  unsigned char frame[5];
  s->fd = connected_from(1 + (s->number + s->count[CONNECT] * sessions) % 200);
  s->from = s->to = 0;
  size_t len = put_bytes(frame, 0x02, 0, 0);
  const unsigned char *reply = send_all(s->fd, frame, len) ? received(s, 6) : NULL;
  if (reply && reply[4] == 0xff && reply[5] == NO_ROOM) {
    s->refused[CONNECT]++;
  } else if (reply && (reply[4] != 0xff || reply[5] != 0x41)) {
    if (s->wrong[CONNECT]++ == 0) fprintf(stderr, "session %lu: the reply 0x%02x 0x%02x to the smallest request\n", s->number, reply[4], reply[5]);
    s->count[CONNECT]++;
  } else {
    s->count[CONNECT]++;
  }
  close(s->fd);
  return reply != NULL;
}

static int is_alone(int kind) { return weights[kind] == all_weights; }

static void *hold(void *given) {
  struct session *s = given;
  int is_connecting = is_alone(CONNECT), is_served = 1;
  s->random = seed * 1000003 + s->number;
  s->place = UINT64_MAX;
  s->fd = is_connecting ? -1 : connected_from(0);
  if (!is_connecting && !is_alone(ECHO)) is_served = fill(s);
  pthread_barrier_wait(&filled);
  pthread_barrier_wait(&start);
  double between = rate > 0 ? window * sessions / rate : 0, due = begun + between * s->number / sessions;
  while (is_served) {
    double from = now();
    if (between > 0) {
      if (from < due) usleep((due - from) * 1e6);
      from = due;
      due += between;
    }
    if (from >= begun + seconds) break;
    int kind = next_kind(s);
    is_served = is_connecting ? ask_anew(s) : ask(s, kind);
    if (is_served) take(s, kind, from, now());
  }
  s->ended_early = !is_served;
  if (s->ended_early) fprintf(stderr, "session %lu: it ended early\n", s->number);
  if (!is_connecting) close(s->fd);
  return NULL;
}

// Figures

static int by_kind_and_size(const void *a, const void *b) {
  const struct sample *x = a, *y = b;
  return x->kind != y->kind ? (x->kind > y->kind) - (x->kind < y->kind) : (x->took > y->took) - (x->took < y->took);
}

static int by_time(const void *a, const void *b) {
  const struct sample *x = a, *y = b;
  return (x->at > y->at) - (x->at < y->at);
}

static float percentile(const struct sample *sorted, size_t len, double part) { return len ? sorted[(size_t)((len - 1) * part)].took : 0; }

// Writes a line for each kind of each stretch of `every` seconds.
static void write_series(struct sample *samples, size_t len) {
  FILE *file = fopen(series, "w");
  if (!file) die(series);
  fprintf(file, "# begun %.6f\nsecond,kind,replies_a_second,p50_us,p99_us,p999_us,most_us\n", begun);
  qsort(samples, len, sizeof *samples, by_time);
  for (size_t from = 0, to = 0; from < len; from = to) {
    uint64_t stretch = samples[from].at / every;
    while (to < len && (uint64_t)(samples[to].at / every) == stretch) to++;
    qsort(samples + from, to - from, sizeof *samples, by_kind_and_size);
    for (size_t at = from, end = from; at < to; at = end) {
      while (end < to && samples[end].kind == samples[at].kind) end++;
      const struct sample *of = samples + at;
      size_t n = end - at;
      fprintf(file, "%.3f,%s,%.0f,%.1f,%.1f,%.1f,%.1f\n", stretch * every, names[of->kind], n * window / every, percentile(of, n, 0.5),
              percentile(of, n, 0.99), percentile(of, n, 0.999), of[n - 1].took);
    }
  }
  if (fclose(file)) die(series);
}

static int print_figures(struct session *all) {
  size_t len = 0;
  int is_wrong = 0;
  for (int i = 0; i < sessions; i++) len += all[i].samples_len;
  struct sample *samples = malloc((len + 1) * sizeof *samples);
  if (!samples) die("memory");
  len = 0;
  double ended = begun;
  for (int i = 0; i < sessions; i++) {
    memcpy(samples + len, all[i].samples, all[i].samples_len * sizeof *samples);
    len += all[i].samples_len;
    is_wrong |= all[i].ended_early;
  }
  for (size_t i = 0; i < len; i++) ended = begun + samples[i].at > ended ? begun + samples[i].at : ended;
  qsort(samples, len, sizeof *samples, by_kind_and_size);
  printf("%-9s %10s %10s %9s %9s %9s %10s %7s %7s\n", "kind", "replies", "a second", "50 %, us", "99 %, us", "99.9 %, us", "most, us", "refused", "wrong");
  for (size_t at = 0, end = 0; at < len; at = end) {
    while (end < len && samples[end].kind == samples[at].kind) end++;
    const struct sample *of = samples + at;
    uint64_t count = 0, refused = 0, wrong = 0;
    for (int i = 0; i < sessions; i++) count += all[i].count[of->kind], refused += all[i].refused[of->kind], wrong += all[i].wrong[of->kind];
    printf("%-9s %10lu %10.0f %9.1f %9.1f %9.1f %10.1f %7lu %7lu\n", names[of->kind], count, count / (ended - begun), percentile(of, end - at, 0.5),
           percentile(of, end - at, 0.99), percentile(of, end - at, 0.999), of[end - at - 1].took, refused, wrong);
    is_wrong |= (refused > 0 && of->kind != CONNECT) || wrong > 0;
  }
  if (series) write_series(samples, len);
  return is_wrong || len == 0;
}

// Words

static int bad(const char *what) {
  fprintf(stderr, "load: %s\n", what);
  return 2;
}

static int read_mix(char *text) {
  memset(weights, 0, sizeof weights);
  all_weights = 0;
  for (char *part = strtok(text, ","); part; part = strtok(NULL, ",")) {
    char *weight = strchr(part, '=');
    if (weight) *weight++ = 0;
    int kind = 0;
    while (kind < KINDS && strcmp(part, names[kind])) kind++;
    if (kind == KINDS) return 0;
    weights[kind] = weight ? atoi(weight) : 1;
    if (weights[kind] < 1 || weights[kind] > 1000000) return 0;
    all_weights += weights[kind];
  }
  return all_weights > 0 && ((!weights[ECHO] && !weights[CONNECT]) || is_alone(ECHO) || is_alone(CONNECT));
}

static int read_address(const char *address, int port) {
  struct sockaddr_in *v4 = (struct sockaddr_in *)&server;
  struct sockaddr_in6 *v6 = (struct sockaddr_in6 *)&server;
  if (inet_pton(AF_INET, address, &v4->sin_addr) == 1) {
    v4->sin_family = AF_INET, v4->sin_port = htons(port), server_len = sizeof *v4;
  } else if (inet_pton(AF_INET6, address, &v6->sin6_addr) == 1) {
    v6->sin6_family = AF_INET6, v6->sin6_port = htons(port), server_len = sizeof *v6;
  }
  return server_len > 0;
}

int main(int argc, char **argv) {
  char lookups[] = "lookup";
  read_mix(lookups);
  if (argc < 3 || !read_address(argv[1], atoi(argv[2]))) return bad("ADDRESS and PORT can't be read");
  for (int i = 3; i + 1 < argc; i += 2) {
    char *value = argv[i + 1];
    if (!strcmp(argv[i], "--sessions")) sessions = atoi(value);
    else if (!strcmp(argv[i], "--seconds")) seconds = atof(value);
    else if (!strcmp(argv[i], "--rate")) rate = atof(value);
    else if (!strcmp(argv[i], "--window")) window = atoi(value);
    else if (!strcmp(argv[i], "--rows")) rows = atoll(value);
    else if (!strcmp(argv[i], "--made")) first_of_own = atoll(value);
    else if (!strcmp(argv[i], "--seed")) seed = atoll(value);
    else if (!strcmp(argv[i], "--series")) series = value;
    else if (!strcmp(argv[i], "--every")) every = atof(value);
    else if (strcmp(argv[i], "--mix") || !read_mix(value)) return bad("an option can't be read");
  }
  if (sessions < 1 || sessions > MOST_SESSIONS || window < 1 || window > MOST_WINDOW || rows < 1 || rows > MOST_ROWS || first_of_own > MOST_MADE || seconds <= 0 || every <= 0)
    return bad("a number is out of its range");
  signal(SIGPIPE, SIG_IGN);
  struct session *all = calloc(sessions, sizeof *all);
  pthread_t threads[MOST_SESSIONS];
  pthread_barrier_init(&filled, NULL, sessions + 1);
  pthread_barrier_init(&start, NULL, sessions + 1);
  for (int i = 0; i < sessions; i++) {
    all[i].number = i;
    if (pthread_create(&threads[i], NULL, hold, &all[i])) die("thread");
  }
  pthread_barrier_wait(&filled);
  begun = now();
  pthread_barrier_wait(&start);
  for (int i = 0; i < sessions; i++) pthread_join(threads[i], NULL);
  return print_figures(all);
}
