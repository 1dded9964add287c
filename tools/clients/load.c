/* load PORT MOUNTPORT EXPORT KIND LINKS DEPTH CALLS
 *
 * Sends calls of NFS version 3 (RFC 1813) over TCP to 127.0.0.1, on so many links at once, and on each link so many ahead of their replies.
 * KIND is getattr, lookup, read, create, mkdir or write; a read or a write is of 8,192 bytes. A directory of its own is made first, with what
 * the calls need. It prints a line: KIND LINKS DEPTH, calls a second, the median and the 99th percentile of a reply's time in microseconds,
 * and how many replies had another status than 0. The status is 0 where none had. */
#include <arpa/inet.h>
#include <netinet/in.h>
#include <netinet/tcp.h>
#include <pthread.h>
#include <stdint.h>
#include <stdio.h>
#include <stdlib.h>
#include <string.h>
#include <sys/socket.h>
#include <sys/time.h>
#include <time.h>
#include <unistd.h>

enum { NFS = 100003, MOUNT = 100005 };
enum { MNT = 1, GETATTR = 1, LOOKUP = 3, READ = 6, WRITE = 7, CREATE = 8, MKDIR = 9 };
enum { PIECE = 8192, FILES = 100, PIECES = 128, MOST_LINKS = 16, MOST_DEPTH = 16, MOST_CALLS = 1000000, ROOM = 16384, REPLY_SECONDS = 60 };

struct handle {
  uint32_t length;
  unsigned char bytes[64];
};

struct link {
  int socket;
  int number;
  uint32_t next;
  unsigned char out[ROOM], in[ROOM];
  size_t written, received, read;
  uint64_t sent_at[MOST_DEPTH];
  long calls, others;
  uint64_t *times;
};

static int port, procedure, depth;
static const char *kind;
static struct handle directory, files[FILES];

static void stop(const char *why) {
  printf("%s failed: %s\n", kind, why);
  exit(3);
}

static uint64_t microseconds(void) {
  struct timespec now;
  clock_gettime(CLOCK_MONOTONIC, &now);
  return (uint64_t)now.tv_sec * 1000000 + now.tv_nsec / 1000;
}

/* ---- what is sent (XDR) */

static void put_number(struct link *link, uint32_t number) {
  number = htonl(number);
  memcpy(link->out + link->written, &number, 4);
  link->written += 4;
}

static void put_opaque(struct link *link, const void *bytes, uint32_t length) {
  put_number(link, length);
  memset(link->out + link->written, 0, (length + 3) / 4 * 4);
  memcpy(link->out + link->written, bytes, length);
  link->written += (length + 3) / 4 * 4;
}

static void put_handle(struct link *link, const struct handle *handle) {
  put_opaque(link, handle->bytes, handle->length);
}

static void put_offset(struct link *link, uint32_t offset) {
  put_number(link, 0);
  put_number(link, offset);
}

/* A mode, and no other attribute. */
static void put_attributes(struct link *link, uint32_t mode) {
  put_number(link, 1);
  put_number(link, mode);
  for (int n = 0; n < 5; n++)
    put_number(link, 0);
}

static void begin(struct link *link, uint32_t program, uint32_t which) {
  const uint32_t words[] = {0, link->next, 0, 2, program, 3, which, 1, 20, 0, 0, 0, 0, 0, 0, 0};
  link->written = 0;
  for (size_t n = 0; n < sizeof words / sizeof *words; n++)
    put_number(link, words[n]);
}

static void send_all(struct link *link) {
  uint32_t header = htonl(0x80000000u | (uint32_t)(link->written - 4));
  memcpy(link->out, &header, 4);
  for (size_t done = 0; done < link->written;) {
    ssize_t count = write(link->socket, link->out + done, link->written - done);
    if (count <= 0)
      stop("the server took no more");
    done += count;
  }
  link->next++;
}

/* ---- what is received */

static void receive_bytes(struct link *link, size_t count) {
  for (size_t done = 0; done < count;) {
    ssize_t got = read(link->socket, link->in + done, count - done);
    if (got <= 0)
      stop(got ? "no reply came" : "the server closed a link");
    done += got;
  }
}

static uint32_t take_number(struct link *link) {
  uint32_t number;
  if (link->read + 4 > link->received)
    stop("a reply is too short");
  memcpy(&number, link->in + link->read, 4);
  link->read += 4;
  return ntohl(number);
}

static void take_handle(struct link *link, struct handle *handle) {
  handle->length = take_number(link);
  if (handle->length > 64 || link->read + handle->length > link->received)
    stop("a reply has no file handle");
  memcpy(handle->bytes, link->in + link->read, handle->length);
}

/* The next reply, up to its results; gives its number. */
static uint32_t receive(struct link *link) {
  uint32_t header;
  receive_bytes(link, 4);
  memcpy(&header, link->in, 4);
  header = ntohl(header);
  link->received = header & 0x7fffffff;
  if (!(header >> 31) || link->received > ROOM || link->received < 24)
    stop("a reply of another form");
  receive_bytes(link, link->received);
  link->read = 0;
  uint32_t number = take_number(link);
  for (uint32_t word = 1; word <= 5; word++)
    if (take_number(link) != (word == 1))
      stop("a call was refused");
  return number;
}

static void dial(struct link *link, int to) {
  struct sockaddr_in address = {.sin_family = AF_INET, .sin_port = htons(to), .sin_addr.s_addr = htonl(INADDR_LOOPBACK)};
  struct timeval limit = {REPLY_SECONDS, 0};
  int yes = 1;
  link->socket = socket(AF_INET, SOCK_STREAM, 0);
  if (connect(link->socket, (struct sockaddr *)&address, sizeof address))
    stop("no link");
  setsockopt(link->socket, IPPROTO_TCP, TCP_NODELAY, &yes, sizeof yes);
  setsockopt(link->socket, SOL_SOCKET, SO_RCVTIMEO, &limit, sizeof limit);
}

/* ---- calls */

static void put_name(struct link *link, const char *before, long number) {
  char name[64];
  put_opaque(link, name, snprintf(name, sizeof name, "%s%ld", before, number));
}

static void put_piece(struct link *link, const struct handle *file, long piece) {
  static const unsigned char bytes[PIECE];
  put_handle(link, file);
  put_offset(link, piece * PIECE);
  put_number(link, PIECE);
  put_number(link, 2);
  put_opaque(link, bytes, PIECE);
}

/* Sends the call of that number on a link. */
static void send_call(struct link *link, long number) {
  char before[32];
  const struct handle *file = &files[procedure == READ || procedure == WRITE ? link->number : number % FILES];
  snprintf(before, sizeof before, "new%d-", link->number);
  begin(link, NFS, procedure);
  switch (procedure) {
  case GETATTR:
    put_handle(link, file);
    break;
  case LOOKUP:
    put_handle(link, &directory);
    put_name(link, "file", number % FILES);
    break;
  case READ:
    put_handle(link, file);
    put_offset(link, number % 8 * PIECE);
    put_number(link, PIECE);
    break;
  case WRITE:
    put_piece(link, file, number % PIECES);
    break;
  default:
    put_handle(link, &directory);
    put_name(link, before, number);
    if (procedure == CREATE)
      put_number(link, 0);
    put_attributes(link, 0755);
  }
  send_all(link);
}

/* Makes a file or a directory, and gives its handle. */
static struct handle make(struct link *link, const struct handle *parent, int how, const char *before, long number) {
  struct handle made;
  begin(link, NFS, how);
  put_handle(link, parent);
  put_name(link, before, number);
  if (how == CREATE)
    put_number(link, 0);
  put_attributes(link, 0777);
  send_all(link);
  receive(link);
  if (take_number(link) != 0 || take_number(link) != 1)
    stop("what the calls need couldn't be made");
  take_handle(link, &made);
  return made;
}

static struct handle mounted(int mount_port, const char *export) {
  struct link link = {.next = 1};
  struct handle root;
  dial(&link, mount_port);
  begin(&link, MOUNT, MNT);
  put_opaque(&link, export, strlen(export));
  send_all(&link);
  receive(&link);
  if (take_number(&link) != 0)
    stop("no mount");
  take_handle(&link, &root);
  close(link.socket);
  return root;
}

static void prepare(int mount_port, const char *export, int links) {
  struct handle root = mounted(mount_port, export);
  static struct link link = {.next = 1};
  dial(&link, port);
  directory = make(&link, &root, MKDIR, "load", (long)(microseconds() % 1000000000));
  for (int n = 0; n < FILES; n++)
    files[n] = make(&link, &directory, CREATE, "file", n);
  for (int n = 0; procedure == READ && n < links * 8; n++) {
    begin(&link, NFS, WRITE);
    put_piece(&link, &files[n / 8], n % 8);
    send_all(&link);
    receive(&link);
    if (take_number(&link) != 0)
      stop("what is to be read couldn't be written");
  }
  close(link.socket);
}

static void *run(void *given) {
  struct link *link = given;
  uint32_t first = link->next;
  long sent = 0, done = 0;
  while (done < link->calls) {
    while (sent < link->calls && sent - done < depth) {
      link->sent_at[sent % MOST_DEPTH] = microseconds();
      send_call(link, sent++);
    }
    /* (replies come in the order of the calls from one server, and not from each) */
    long number = (long)(receive(link) - first);
    link->times[done++] = microseconds() - link->sent_at[number % MOST_DEPTH];
    link->others += take_number(link) != 0;
  }
  return NULL;
}

static int in_order(const void *one, const void *other) {
  uint64_t a = *(const uint64_t *)one, b = *(const uint64_t *)other;
  return a < b ? -1 : a > b;
}

int main(int count, char **words) {
  static const struct {
    const char *name;
    int procedure;
  } kinds[] = {{"getattr", GETATTR}, {"lookup", LOOKUP}, {"read", READ}, {"create", CREATE}, {"mkdir", MKDIR}, {"write", WRITE}};
  static struct link links[MOST_LINKS];
  pthread_t threads[MOST_LINKS];
  if (count != 8)
    return fprintf(stderr, "load PORT MOUNTPORT EXPORT KIND LINKS DEPTH CALLS\n"), 2;
  kind = words[4];
  port = atoi(words[1]);
  int link_count = atoi(words[5]);
  depth = atoi(words[6]);
  long calls = atol(words[7]), others = 0;
  for (size_t n = 0; n < sizeof kinds / sizeof *kinds; n++)
    if (!strcmp(kind, kinds[n].name))
      procedure = kinds[n].procedure;
  if (!procedure || link_count < 1 || link_count > MOST_LINKS || depth < 1 || depth > MOST_DEPTH || calls < link_count || calls > MOST_CALLS)
    return fprintf(stderr, "load: a word is out of bounds\n"), 2;
  calls = calls / link_count * link_count;
  uint64_t *times = calloc(calls, sizeof *times);
  prepare(atoi(words[2]), words[3], link_count);
  for (int n = 0; n < link_count; n++) {
    links[n].number = n;
    links[n].calls = calls / link_count;
    links[n].times = times + n * links[n].calls;
    links[n].next = (uint32_t)microseconds() + 100000 * n;
    dial(&links[n], port);
  }
  uint64_t begun = microseconds();
  for (int n = 0; n < link_count; n++)
    pthread_create(&threads[n], NULL, run, &links[n]);
  for (int n = 0; n < link_count; n++) {
    pthread_join(threads[n], NULL);
    others += links[n].others;
  }
  double seconds = (microseconds() - begun) / 1e6;
  qsort(times, calls, sizeof *times, in_order);
  printf("%s %d %d  %.0f a second, median %lu us, 99th percentile %lu us, other statuses %ld\n", kind, link_count, depth, calls / seconds,
         (unsigned long)times[calls / 2], (unsigned long)times[calls * 99 / 100], others);
  return others != 0;
}
