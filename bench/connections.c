// Both ends of the connections of bench/serve: `connections ask PORT FILE` sends each request of FILE on a connection
// of its own, one after another, and prints a line for each: how many nanoseconds went by until all of the reply was
// there, and the reply's size, its status, and its body up to the first line's end. `connections bare PORT N` serves N
// connections with as few calls as one can have: it takes what comes, answers `ok`, and waits for the peer's end.
//
// FILE has, for each request, a line with its number of bytes, and then these.
#include <arpa/inet.h>
#include <netinet/in.h>
#include <stdio.h>
#include <stdlib.h>
#include <string.h>
#include <sys/socket.h>
#include <time.h>
#include <unistd.h>

enum { MOST = 1 << 24 };

static char text[MOST];

static void fail(const char *reason) {
    perror(reason);
    exit(1);
}

static struct sockaddr_in address_of(int port) {
    struct sockaddr_in address = {.sin_family = AF_INET, .sin_port = htons(port)};
    address.sin_addr.s_addr = htonl(INADDR_LOOPBACK);
    return address;
}

static long now(void) {
    struct timespec time;
    clock_gettime(CLOCK_MONOTONIC, &time);
    return time.tv_sec * 1000000000L + time.tv_nsec;
}

static void send_all(int peer, const char *bytes, size_t count) {
    for (size_t at = 0; at < count;) {
        ssize_t sent = send(peer, bytes + at, count - at, MSG_NOSIGNAL);
        if (sent <= 0) fail("send");
        at += sent;
    }
}

// Sends the request that is in the text, and puts the whole reply there: its size.
static size_t ask(int port, size_t count) {
    struct sockaddr_in address = address_of(port);
    int peer = socket(AF_INET, SOCK_STREAM, 0);
    if (peer < 0 || connect(peer, (struct sockaddr *)&address, sizeof address) != 0) fail("connect");
    send_all(peer, text, count);
    size_t size = 0;
    for (;;) {
        ssize_t got = recv(peer, text + size, MOST - 1 - size, 0);
        if (got < 0) fail("recv");
        if (got == 0) break;
        size += got;
    }
    close(peer);
    return size;
}

static void ask_all(int port, FILE *file) {
    size_t count;
    while (fscanf(file, "%zu", &count) == 1 && fgetc(file) == '\n') {
        if (count >= MOST || fread(text, 1, count, file) != count) fail("the file of requests");
        long began = now();
        size_t size = ask(port, count);
        long took = now() - began;
        text[size] = 0;
        const char *body = strstr(text, "\r\n\r\n");
        body = body == 0 ? "" : body + 4;
        printf("%ld %zu %.3s %.*s\n", took, size, size > 12 ? text + 9 : "", (int)strcspn(body, "\n"), body);
    }
}

static void serve_bare(int port, long connections) {
    static const char reply[] = "HTTP/1.1 200 OK\r\nContent-Type: text/plain; charset=utf-8\r\nContent-Length: 3\r\n"
                                "Connection: close\r\n\r\nok\n";
    struct sockaddr_in address = address_of(port);
    int on = 1, listener = socket(AF_INET, SOCK_STREAM, 0);
    setsockopt(listener, SOL_SOCKET, SO_REUSEADDR, &on, sizeof on);
    if (bind(listener, (struct sockaddr *)&address, sizeof address) != 0 || listen(listener, 128) != 0) fail("bind");
    puts("listening");
    fflush(stdout);
    for (; connections > 0; connections--) {
        int peer = accept(listener, 0, 0);
        if (peer < 0) fail("accept");
        recv(peer, text, MOST, 0);
        send_all(peer, reply, sizeof reply - 1);
        shutdown(peer, SHUT_WR);
        while (recv(peer, text, MOST, 0) > 0) {
        }
        close(peer);
    }
}

int main(int count, char **words) {
    if (count != 4) return 2;
    if (strcmp(words[1], "bare") == 0) {
        serve_bare(atoi(words[2]), atol(words[3]));
        return 0;
    }
    FILE *file = fopen(words[3], "rb");
    if (file == 0) fail(words[3]);
    ask_all(atoi(words[2]), file);
    return 0;
}
