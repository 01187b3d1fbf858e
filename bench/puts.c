/* Puts keys into an etcd, each connection one at a time, by its own protocol (gRPC over HTTP/2 without encryption).

   puts PORT[,PORT..] CONNECTIONS COUNT     prints the seconds that it took until each connection had COUNT puts answered

   A put that is refused, or not answered within a tenth of a second where several ports are named, is tried again at the next port. */
#define _GNU_SOURCE
#include <arpa/inet.h>
#include <netinet/tcp.h>
#include <pthread.h>
#include <stdint.h>
#include <stdio.h>
#include <stdlib.h>
#include <string.h>
#include <sys/socket.h>
#include <sys/time.h>
#include <time.h>
#include <unistd.h>

enum { DATA = 0, HEADERS = 1, RESET = 3, SETTINGS = 4, PING = 6, GOAWAY = 7, WINDOW = 8 };
enum { END_STREAM = 1, ACK = 1, END_HEADERS = 4, HEAD = 9, MOST = 1 << 16 };

/* what each request says of itself: literals that no table has to know */
static const uint8_t headers[] =
    "\x83\x86\x04\x14/etcdserverpb.KV/Put\x01\x09localhost\x0f\x10\x10" "application/grpc\x00\x02te\x08trailers";

static int ports[8], port_count, put_count;

/* a stream of frames, and those bytes of it that came and were not taken */
struct link {
  int socket;
  uint32_t request;
  size_t got;
  uint8_t bytes[MOST];
};

static uint8_t *put_head(uint8_t *to, size_t length, int kind, int flags, uint32_t request) {
  uint32_t number = htonl(request);
  to[0] = length >> 16, to[1] = length >> 8, to[2] = length, to[3] = kind, to[4] = flags;
  memcpy(to + 5, &number, 4);
  return to + HEAD;
}

static int sends(struct link *link, const uint8_t *bytes, size_t size) {
  return send(link->socket, bytes, size, MSG_NOSIGNAL) == (ssize_t)size;
}

static int dial(struct link *link, int port) {
  struct sockaddr_in to = {.sin_family = AF_INET, .sin_port = htons(port), .sin_addr.s_addr = htonl(INADDR_LOOPBACK)};
  struct timeval patience = {.tv_usec = port_count > 1 ? 100000 : 0};
  int yes = 1;
  *link = (struct link){.socket = socket(AF_INET, SOCK_STREAM, 0), .request = 1};
  setsockopt(link->socket, IPPROTO_TCP, TCP_NODELAY, &yes, sizeof yes);
  setsockopt(link->socket, SOL_SOCKET, SO_RCVTIMEO, &patience, sizeof patience);
  if (connect(link->socket, (void *)&to, sizeof to)) return 0;
  /* the preface, no settings, and room for all answers that will ever come */
  uint8_t hello[24 + HEAD + HEAD + 4], *at = (uint8_t *)mempcpy(hello, "PRI * HTTP/2.0\r\n\r\nSM\r\n\r\n", 24);
  at = put_head(at, 0, SETTINGS, 0, 0);
  memcpy(put_head(at, 4, WINDOW, 0, 0), "\x3f\xff\0\0", 4);
  return sends(link, hello, sizeof hello);
}

static int ask(struct link *link, int connection, int number) {
  uint8_t bytes[512], message[256], *at = bytes;
  char key[32], value[64];
  int key_size = sprintf(key, "m%d/%d", connection, number), value_size = sprintf(value, "instruct %d M31 USD 1 EUR 1", number);
  int size = 2 + key_size + 2 + value_size;
  memcpy(message, (uint8_t[]){0, 0, 0, 0, size, 0x0a, key_size}, 7);
  memcpy(message + 7, key, key_size);
  memcpy(message + 7 + key_size, (uint8_t[]){0x12, value_size}, 2);
  memcpy(message + 9 + key_size, value, value_size);
  at = mempcpy(put_head(at, sizeof headers - 1, HEADERS, END_HEADERS, link->request), headers, sizeof headers - 1);
  at = mempcpy(put_head(at, 5 + size, DATA, END_STREAM, link->request), message, 5 + size);
  return sends(link, bytes, at - bytes);
}

/* takes a frame: 1 where the request is answered, 0 where more is to come, -1 where it is refused */
static int take(struct link *link, const uint8_t *frame, size_t length, int *is_answered) {
  int kind = frame[3], flags = frame[4];
  uint8_t reply[HEAD + 8];
  if (kind == RESET || kind == GOAWAY) return -1;
  if (kind == SETTINGS && !(flags & ACK)) return sends(link, reply, put_head(reply, 0, SETTINGS, ACK, 0) - reply) - 1;
  if (kind == PING && !(flags & ACK)) return memcpy(put_head(reply, 8, PING, ACK, 0), frame + HEAD, 8), sends(link, reply, sizeof reply) - 1;
  if (kind == DATA && length) *is_answered = 1;
  return (kind == DATA || kind == HEADERS) && (flags & END_STREAM) ? (*is_answered ? 1 : -1) : 0;
}

/* whether the request that was asked is answered with what a put answers */
static int hears(struct link *link) {
  int is_answered = 0;
  for (;;) {
    size_t at = 0;
    int end = 0;
    while (!end && link->got - at >= HEAD) {
      const uint8_t *frame = link->bytes + at;
      size_t length = frame[0] << 16 | frame[1] << 8 | frame[2];
      if (link->got - at < HEAD + length) break;
      end = take(link, frame, length, &is_answered);
      at += HEAD + length;
    }
    memmove(link->bytes, link->bytes + at, link->got -= at);
    if (end) return link->request += 2, end > 0;
    ssize_t got = recv(link->socket, link->bytes + link->got, MOST - link->got, 0);
    if (got <= 0) return 0;
    link->got += got;
  }
}

static void *work(void *which) {
  int connection = (int)(intptr_t)which, at = connection % port_count;
  struct link *link = malloc(sizeof *link);
  int is_up = dial(link, ports[at]);
  for (int number = 0; number < put_count;) {
    if (is_up && ask(link, connection, number) && hears(link)) {
      number++;
      continue;
    }
    close(link->socket);
    usleep(2000);
    at = (at + 1) % port_count;
    is_up = dial(link, ports[at]);
  }
  close(link->socket);
  free(link);
  return NULL;
}

int main(int count, char **words) {
  if (count != 4) return 2;
  for (char *it = strtok(words[1], ","); it && port_count < 8; it = strtok(NULL, ",")) ports[port_count++] = atoi(it);
  int connections = atoi(words[2]);
  put_count = atoi(words[3]);
  pthread_t *threads = calloc(connections, sizeof *threads);
  struct timespec began, ended;
  clock_gettime(CLOCK_MONOTONIC, &began);
  for (int it = 0; it < connections; it++) pthread_create(&threads[it], NULL, work, (void *)(intptr_t)it);
  for (int it = 0; it < connections; it++) pthread_join(threads[it], NULL);
  clock_gettime(CLOCK_MONOTONIC, &ended);
  printf("%.6f\n", ended.tv_sec - began.tv_sec + (ended.tv_nsec - began.tv_nsec) / 1e9);
  return 0;
}
