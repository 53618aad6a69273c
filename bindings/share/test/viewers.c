/* Many viewers of one screen in one thread, which follow it as docs/VIEWER.md says, as far as the
 * heads of answers go:
 *
 *   cc -O2 viewers.c -o viewers
 *   viewers PORT PATH COUNT SECONDS
 *
 * They ask the server at 127.0.0.1:PORT for PATH/SOURCE/NUMBER over connections that begin in the
 * first seconds, 2,000 in each. What comes in the SECONDS after these is counted, and printed as
 * one line of words and numbers. Late is a viewer by the time since the first one had a number. */
#define _GNU_SOURCE
#include <arpa/inet.h>
#include <errno.h>
#include <netinet/tcp.h>
#include <stdbool.h>
#include <stdint.h>
#include <stdio.h>
#include <stdlib.h>
#include <string.h>
#include <sys/epoll.h>
#include <sys/resource.h>
#include <sys/socket.h>
#include <time.h>
#include <unistd.h>

enum { BEGIN_EACH_SECOND = 2000, READ = 1 << 16, EVENTS = 512 };
static const uint64_t SECOND = 1000000000, AGAIN = 500000000; /* nanoseconds */

/* Bytes that wait for more. */
struct bytes {
    uint8_t *at;
    size_t len, room;
};

/* When a viewer had a number. */
struct seen {
    uint64_t time, number;
};

/* What comes next of a response. */
enum state { HEAD, SIZE, CHUNK, BREAK, END, BODY };

struct viewer {
    int fd;
    bool is_open;
    enum state state;
    size_t left; /* of the body or the chunk */
    struct bytes in, body;
    uint64_t source, number;
    uint64_t wake; /* when to connect */
    struct seen *log;
    size_t logged, room;
};

static const char *path;
static int port, count, poller;
static struct viewer *viewers;
static uint64_t begin; /* of what is counted */
static uint64_t requests, refused, lost, repaints, stale, received;

static uint64_t now(void) {
    struct timespec time;
    clock_gettime(CLOCK_MONOTONIC, &time);
    return (uint64_t)time.tv_sec * SECOND + (uint64_t)time.tv_nsec;
}

static void *grow(void *at, size_t size) {
    void *grown = realloc(at, size);
    if (!grown) {
        fputs("viewers: out of memory\n", stderr);
        exit(3);
    }
    return grown;
}

static void append(struct bytes *to, const uint8_t *bytes, size_t len) {
    if (to->len + len > to->room) {
        to->room = 2 * (to->len + len);
        to->at = grow(to->at, to->room);
    }
    memcpy(to->at + to->len, bytes, len);
    to->len += len;
}

static void drop(struct bytes *from, size_t len) {
    from->len -= len;
    memmove(from->at, from->at + len, from->len);
}

/* Reads the head of an item: its major type and its number. Returns how many bytes it has, or 0
 * where they aren't all there. */
static size_t item_head(const uint8_t *bytes, size_t len, int *major, uint64_t *number) {
    if (!len)
        return 0;
    uint8_t info = bytes[0] & 31;
    size_t size = info < 24 ? 0 : (size_t)1 << (info - 24);
    *major = bytes[0] >> 5;
    if (*major == 7)
        return 1;
    if (info > 27 || len < 1 + size)
        return 0;
    *number = size ? 0 : info;
    for (size_t k = 1; k <= size; k++)
        *number = *number << 8 | bytes[k];
    return 1 + size;
}

/* The length of the answer that begins here, or 0 where it isn't whole. Its first numbers are
 * written to `parts`: version, source, width, height, base and number. */
static size_t read_answer(const uint8_t *bytes, size_t len, uint64_t parts[6]) {
    size_t at = 0, kept = 0;
    for (uint64_t left = 1; left; left--) {
        int major = 0;
        uint64_t number = 0;
        size_t size = item_head(bytes + at, len - at, &major, &number);
        if (!size)
            return 0;
        at += size;
        if (major == 0 && kept < 6)
            parts[kept++] = number;
        if (major == 4)
            left += number;
        if (major == 2 || major == 3) {
            if (number > len - at)
                return 0;
            at += number;
        }
    }
    return at;
}

/* Takes an answer as a viewer does: a repaint, or a delta that fits. */
static void take(struct viewer *viewer, const uint64_t parts[6]) {
    uint64_t source = parts[1], base = parts[4];
    repaints += base == 0;
    if (base && (source != viewer->source || base != viewer->number)) {
        stale++;
        return;
    }
    viewer->source = source;
    viewer->number = parts[5];
    if (viewer->logged == viewer->room) {
        viewer->room = 2 * viewer->room + 64;
        viewer->log = grow(viewer->log, viewer->room * sizeof *viewer->log);
    }
    viewer->log[viewer->logged++] = (struct seen){now(), viewer->number};
}

static void feed(struct viewer *viewer, const uint8_t *bytes, size_t len) {
    uint64_t parts[6];
    received += len;
    append(&viewer->body, bytes, len);
    size_t at = 0, size;
    while ((size = read_answer(viewer->body.at + at, viewer->body.len - at, parts))) {
        take(viewer, parts);
        at += size;
    }
    drop(&viewer->body, at);
}

static void ask(struct viewer *viewer) {
    static const char form[] = "GET %s/%llu/%llu HTTP/1.1\r\nHost: 127.0.0.1:%d\r\n\r\n";
    unsigned long long source = viewer->source, number = viewer->number;
    char line[512];
    int len = snprintf(line, sizeof line, form, path, source, number, port);
    requests++;
    viewer->state = HEAD;
    lost += write(viewer->fd, line, (size_t)len) != len; /* which is too short to be cut */
}

static void leave(struct viewer *viewer) {
    close(viewer->fd);
    viewer->fd = -1;
    viewer->wake = now() + AGAIN;
}

static void begin_connection(struct viewer *viewer) {
    struct sockaddr_in to = {.sin_family = AF_INET, .sin_port = htons((uint16_t)port)};
    int one = 1;
    to.sin_addr.s_addr = htonl(INADDR_LOOPBACK);
    viewer->fd = socket(AF_INET, SOCK_STREAM | SOCK_NONBLOCK, 0);
    viewer->is_open = false;
    viewer->in.len = viewer->body.len = 0;
    setsockopt(viewer->fd, IPPROTO_TCP, TCP_NODELAY, &one, sizeof one);
    struct epoll_event event = {.events = EPOLLIN | EPOLLOUT, .data.ptr = viewer};
    if (viewer->fd < 0 || (connect(viewer->fd, (struct sockaddr *)&to, sizeof to) &&
                           errno != EINPROGRESS) ||
        epoll_ctl(poller, EPOLL_CTL_ADD, viewer->fd, &event)) {
        lost++;
        leave(viewer);
    }
}

/* The length of what comes up to this text and with it, or 0 where it isn't there yet. */
static size_t find(const struct bytes *in, const char *text) {
    const uint8_t *at = memmem(in->at, in->len, text, strlen(text));
    return at ? (size_t)(at - in->at) + strlen(text) : 0;
}

/* Reads the head of a response, of this length. Returns whether it brings answers. */
static bool read_head(struct viewer *viewer, size_t len) {
    viewer->in.at[len - 1] = 0; /* the last of its breaks */
    const char *head = (const char *)viewer->in.at;
    const char *length = strcasestr(head, "\r\ncontent-length:");
    viewer->state = length ? BODY : SIZE;
    viewer->left = length ? strtoull(length + 17, NULL, 10) : 0;
    return !strncmp(head, "HTTP/1.1 200", 12);
}

static size_t use_body(struct viewer *viewer) {
    size_t used = viewer->in.len < viewer->left ? viewer->in.len : viewer->left;
    feed(viewer, viewer->in.at, used);
    viewer->left -= used;
    if (!viewer->left && viewer->state == CHUNK)
        viewer->state = BREAK;
    else if (!viewer->left)
        ask(viewer);
    return used;
}

/* Uses some of what has come, and returns how many bytes: 0 where more has to come first. */
static size_t use(struct viewer *viewer, bool *is_good) {
    struct bytes *in = &viewer->in;
    size_t len = viewer->state == HEAD ? find(in, "\r\n\r\n") : find(in, "\r\n");
    switch (viewer->state) {
    case HEAD:
        *is_good = !len || read_head(viewer, len);
        return len;
    case SIZE:
        viewer->left = len ? strtoull((const char *)in->at, NULL, 16) : 0;
        if (len)
            viewer->state = viewer->left ? CHUNK : END;
        return len;
    case BREAK:
        if (len)
            viewer->state = SIZE;
        return len;
    case END:
        if (len)
            ask(viewer);
        return len;
    case CHUNK:
    case BODY:
        return use_body(viewer);
    }
    return 0;
}

static void receive(struct viewer *viewer) {
    static uint8_t room[READ];
    bool is_good = true;
    ssize_t got = read(viewer->fd, room, sizeof room);
    if (got < 0 && errno == EAGAIN)
        return;
    if (got <= 0) {
        lost++;
        leave(viewer);
        return;
    }
    append(&viewer->in, room, (size_t)got);
    while (is_good && viewer->in.len) {
        size_t used = use(viewer, &is_good);
        if (!used)
            break;
        drop(&viewer->in, used);
    }
    if (!is_good) {
        refused++;
        leave(viewer);
    }
}

/* Begins connections whose time has come, and sees to the others until this time. */
static void run(uint64_t until) {
    struct epoll_event events[EVENTS];
    for (uint64_t time; (time = now()) < until;) {
        for (int k = 0; k < count; k++)
            if (viewers[k].fd < 0 && viewers[k].wake <= time)
                begin_connection(&viewers[k]);
        int ready = epoll_wait(poller, events, EVENTS, 20);
        for (int k = 0; k < ready; k++) {
            struct viewer *viewer = events[k].data.ptr;
            if (viewer->fd >= 0 && !viewer->is_open && events[k].events & EPOLLOUT) {
                struct epoll_event event = {.events = EPOLLIN, .data.ptr = viewer};
                epoll_ctl(poller, EPOLL_CTL_MOD, viewer->fd, &event);
                viewer->is_open = true;
                ask(viewer);
            }
            if (viewer->fd >= 0 && events[k].events & ~(uint32_t)EPOLLOUT)
                receive(viewer);
        }
    }
}

static int by_number(const void *first, const void *second) {
    const struct seen *a = first, *b = second;
    int numbers = (a->number > b->number) - (a->number < b->number);
    return numbers ? numbers : (a->time > b->time) - (a->time < b->time);
}

static int by_time(const void *first, const void *second) {
    uint64_t a = *(const uint64_t *)first, b = *(const uint64_t *)second;
    return (a > b) - (a < b);
}

/* By how much viewers had their numbers later than the first one had that, in ascending order. */
static uint64_t *find_delays(size_t *len) {
    struct seen *all = NULL;
    *len = 0;
    for (int k = 0; k < count; k++) {
        struct viewer *viewer = &viewers[k];
        all = grow(all, (*len + viewer->logged + 1) * sizeof *all);
        for (size_t i = 0; i < viewer->logged; i++)
            if (viewer->log[i].time >= begin)
                all[(*len)++] = viewer->log[i];
    }
    if (*len)
        qsort(all, *len, sizeof *all, by_number);
    uint64_t *delays = grow(NULL, (*len + 1) * sizeof *delays), first = 0;
    for (size_t i = 0; i < *len; i++) {
        if (i == 0 || all[i].number != all[i - 1].number)
            first = all[i].time;
        delays[i] = all[i].time - first;
    }
    if (*len)
        qsort(delays, *len, sizeof *delays, by_time);
    free(all);
    return delays;
}

static double processor_time(void) {
    struct rusage used;
    getrusage(RUSAGE_SELF, &used);
    return (double)(used.ru_utime.tv_sec + used.ru_stime.tv_sec) +
           (double)(used.ru_utime.tv_usec + used.ru_stime.tv_usec) / 1e6;
}

static void report(double seconds, double processor) {
    size_t len, behind = 0;
    uint64_t newest = 0, *delays = find_delays(&len);
    for (int k = 0; k < count; k++)
        newest = viewers[k].number > newest ? viewers[k].number : newest;
    for (int k = 0; k < count; k++)
        behind += viewers[k].number != newest;
    double half = len ? (double)delays[len / 2] / 1e6 : 0;
    double most = len ? (double)delays[(len - 1) * 99 / 100] / 1e6 : 0;
    double each = seconds * count;
    printf("viewers %d updates %.2f late-p50-ms %.1f late-p99-ms %.1f kilobytes %.2f requests %.2f "
           "repaints %llu stale %llu refused %llu lost %llu behind %zu processor %.2f\n",
           count, (double)len / each, half, most, (double)received / each / 1000,
           (double)requests / each, (unsigned long long)repaints, (unsigned long long)stale,
           (unsigned long long)refused, (unsigned long long)lost, behind, processor / seconds);
    free(delays);
}

int main(int argc, char **argv) {
    if (argc != 5) {
        fputs("usage: viewers PORT PATH COUNT SECONDS\n", stderr);
        return 2;
    }
    port = atoi(argv[1]);
    path = argv[2];
    count = atoi(argv[3]);
    uint64_t seconds = strtoull(argv[4], NULL, 10), start = now();
    poller = epoll_create1(0);
    viewers = grow(NULL, (size_t)count * sizeof *viewers);
    memset(viewers, 0, (size_t)count * sizeof *viewers);
    for (int k = 0; k < count; k++) {
        viewers[k].fd = -1;
        viewers[k].wake = start + (uint64_t)k * SECOND / BEGIN_EACH_SECOND;
    }
    begin = start + (uint64_t)(count / BEGIN_EACH_SECOND + 2) * SECOND;
    run(begin);
    double processor = processor_time();
    requests = repaints = stale = received = 0;
    run(begin + seconds * SECOND);
    report((double)seconds, processor_time() - processor);
    return 0;
}
