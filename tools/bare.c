// A bare server to compare with: bare PORT THREADS [FILE]. Each thread has an epoll of its own and a listener at the
// same port, reads what came, and writes one reply, as long as a status read's, where a head has ended in it. It looks
// at nothing else.
// With a FILE it appends a line to that before each reply, and syncs it.
//
// gcc -O2 -pthread tools/bare.c -o bare
#define _GNU_SOURCE
#include <arpa/inet.h>
#include <fcntl.h>
#include <netinet/in.h>
#include <netinet/tcp.h>
#include <pthread.h>
#include <stdlib.h>
#include <string.h>
#include <sys/epoll.h>
#include <sys/socket.h>
#include <unistd.h>

enum { EVENTS = 256, PIECE = 16384, BACKLOG = 1024 };

static const char REPLY[] =
    "HTTP/1.1 200 OK\r\nContent-Type: application/json\r\nContent-Length: 105\r\n\r\n"
    "{\"lra\":\"http://127.0.0.1:8080/lra-coordinator/00000000-0000-8007-8000-000000000001\",\"status\":\"Active\"}   ";

static const char LINE[] = "1 1700000000000 start 100000 * 0\n";

static int port, journal = -1;

static int answer(int client) {
    if (journal >= 0 && (write(journal, LINE, sizeof LINE - 1) < 0 || fdatasync(journal)))
        return -1;
    return write(client, REPLY, sizeof REPLY - 1);
}

static int listen_at(void) {
    int one = 1, it = socket(AF_INET, SOCK_STREAM | SOCK_NONBLOCK, 0);
    struct sockaddr_in at = {.sin_family = AF_INET, .sin_port = htons(port)};
    inet_pton(AF_INET, "127.0.0.1", &at.sin_addr);
    setsockopt(it, SOL_SOCKET, SO_REUSEPORT, &one, sizeof one);
    if (bind(it, (struct sockaddr *)&at, sizeof at) || listen(it, BACKLOG))
        exit(2);
    return it;
}

static void watch(int poll, int file, unsigned events) {
    struct epoll_event it = {.events = events, .data.fd = file};
    epoll_ctl(poll, EPOLL_CTL_ADD, file, &it);
}

static void *serve(void *unused) {
    int one = 1, listener = listen_at(), poll = epoll_create1(0), client;
    struct epoll_event events[EVENTS];
    char piece[PIECE];
    watch(poll, listener, EPOLLIN);
    for (;;) {
        int count = epoll_wait(poll, events, EVENTS, -1);
        for (int place = 0; place < count; place++) {
            int file = events[place].data.fd;
            if (file == listener) {
                while ((client = accept4(listener, 0, 0, SOCK_NONBLOCK)) >= 0) {
                    setsockopt(client, IPPROTO_TCP, TCP_NODELAY, &one, sizeof one);
                    watch(poll, client, EPOLLIN | EPOLLET);
                }
                continue;
            }
            ssize_t came = read(file, piece, sizeof piece);
            if (came <= 0 || (memmem(piece, came, "\r\n\r\n", 4) && answer(file) < 0))
                close(file);
        }
    }
    return unused;
}

int main(int words, char **word) {
    if (words != 3 && words != 4)
        return 2;
    port = atoi(word[1]);
    if (words == 4 && (journal = open(word[3], O_WRONLY | O_APPEND | O_CREAT, 0600)) < 0)
        return 2;
    for (int thread = atoi(word[2]); thread > 0; thread--) {
        pthread_t it;
        pthread_create(&it, 0, serve, 0);
    }
    pause();
}
