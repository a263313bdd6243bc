// What Redis takes as a mailbox: a packet of 1,024 bytes posted, fetched and acknowledged over loopback: redis NAME PORT
//
// A box is a list: RPUSH posts, LINDEX of place 0 fetches, LPOP acknowledges; LPOP tells the packet once more, where the messenger's
// relay acknowledges a packet by its number and doesn't. Measured is a round of the three one after the other over one connection,
// each behind the reply to the one before; and one whose requests go together over a connection of its own, with its opening and its
// end, as bench/src/network.rs measures the relay. The server is another process, where the relay there is called in the same one.
#include "measure.h"
#include <arpa/inet.h>
#include <netinet/in.h>
#include <netinet/tcp.h>
#include <sys/socket.h>

enum { EXCHANGES = 1000, REPLY = 7 + TEXT + 2 };

static char post[ROOM];
static const char fetch[] = "*3\r\n$6\r\nLINDEX\r\n$1\r\na\r\n$1\r\n0\r\n";
static const char acknowledge[] = "*2\r\n$4\r\nLPOP\r\n$1\r\na\r\n";

// The request that posts: its length.
static size_t write_post(void) {
    int head = snprintf(post, sizeof post, "*3\r\n$5\r\nRPUSH\r\n$1\r\na\r\n$%d\r\n", TEXT);
    memset(post + head, 7, TEXT);
    memcpy(post + head + TEXT, "\r\n", 2);
    return (size_t)head + TEXT + 2;
}

static int connected(int port) {
    struct sockaddr_in address = {.sin_family = AF_INET, .sin_port = htons((uint16_t)port)};
    int one = 1, link = socket(AF_INET, SOCK_STREAM, 0);
    address.sin_addr.s_addr = htonl(INADDR_LOOPBACK);
    demand(link >= 0 && !connect(link, (struct sockaddr *)&address, sizeof address), "no server answers");
    demand(!setsockopt(link, IPPROTO_TCP, TCP_NODELAY, &one, sizeof one), "a socket can't be set");
    return link;
}

static void send_all(int link, const char *bytes, size_t length) {
    for (size_t sent = 0; sent < length;) {
        ssize_t more = send(link, bytes + sent, length - sent, 0);
        demand(more > 0, "the server takes no request");
        sent += (size_t)more;
    }
}

// Receives replies of so many bytes, and checks how they begin.
static void expect(int link, size_t length, const char *begins) {
    char bytes[ROOM];
    for (size_t got = 0; got < length;) {
        ssize_t more = recv(link, bytes + got, length - got, 0);
        demand(more > 0 && bytes[0] == begins[0], "the server refuses a request");
        got += (size_t)more;
    }
    demand(!memcmp(bytes, begins, strlen(begins)), "the server answers something else");
}

// The three requests one after the other.
static void exchange(int link, size_t length) {
    send_all(link, post, length);
    expect(link, 4, ":1\r\n");
    send_all(link, fetch, sizeof fetch - 1);
    expect(link, REPLY, "$1024\r\n\7");
    send_all(link, acknowledge, sizeof acknowledge - 1);
    expect(link, REPLY, "$1024\r\n\7");
}

static double time_exchanges(int port, size_t length) {
    static int64_t times[EXCHANGES];
    int link = connected(port);
    for (int round = 0; round < EXCHANGES; round++) {
        int64_t start = now();
        exchange(link, length);
        times[round] = now() - start;
    }
    demand(!close(link), "a connection stays");
    return median(times, EXCHANGES);
}

// The three requests in one piece, over connections of their own.
static double time_connections(int port, size_t length) {
    static int64_t times[EXCHANGES];
    static char requests[ROOM];
    size_t end = length + sizeof fetch - 1;
    memcpy(requests, post, length);
    memcpy(requests + length, fetch, sizeof fetch - 1);
    memcpy(requests + end, acknowledge, sizeof acknowledge - 1);
    end += sizeof acknowledge - 1;
    for (int round = 0; round < EXCHANGES; round++) {
        int64_t start = now();
        int link = connected(port);
        send_all(link, requests, end);
        expect(link, 4 + 2 * REPLY, ":1\r\n$1024\r\n\7");
        demand(!close(link), "a connection stays");
        times[round] = now() - start;
    }
    return median(times, EXCHANGES);
}

int main(int count, char **words) {
    alarm(SECONDS);
    demand(count == 3, "the name and the port are missing");
    int port = atoi(words[2]);
    size_t length = write_post();
    tell(words[1], time_exchanges(port, length), "a packet of %d bytes posted, fetched and acknowledged over one connection", TEXT);
    tell(words[1], time_connections(port, length), "the same in one piece over a connection of its own");
    return 0;
}
