/* The system calls that `sn serve` makes for a request with a commit, and nothing besides: it reads the request, writes to a
 * file and syncs it, twice, and sends an answer of zeros. Nothing is checked, kept apart or answered.
 *
 * bare_server FILE WRITTEN ANSWERED: appends WRITTEN bytes and then one to the file for each request; an answer's body has
 * ANSWERED bytes. Writes its port on 127.0.0.1, and ends with its first connection. */

#define _GNU_SOURCE
#include <arpa/inet.h>
#include <fcntl.h>
#include <netinet/tcp.h>
#include <stdio.h>
#include <stdlib.h>
#include <string.h>
#include <sys/socket.h>
#include <unistd.h>

static char request[1 << 20], answer[1 << 20];

/* Reads one request to its end. 0 where there is none. */
static size_t read_request(int connection)
{
    size_t length = 0;
    for (;;) {
        ssize_t got = read(connection, request + length, sizeof request - 1 - length);
        if (got <= 0)
            return 0;
        length += (size_t)got;
        request[length] = 0;
        char *end = strstr(request, "\r\n\r\n");
        char *size = strstr(request, "Content-Length: ");
        if (end && size && length >= (size_t)(end + 4 - request) + strtoul(size + 16, NULL, 10))
            return length;
    }
}

static int append(int file, size_t length)
{
    return write(file, request, length) == (ssize_t)length && fdatasync(file) == 0;
}

int main(int argc, char **argv)
{
    if (argc != 4)
        return 2;
    size_t written = strtoul(argv[2], NULL, 10), answered = strtoul(argv[3], NULL, 10);
    int file = open(argv[1], O_CREAT | O_WRONLY | O_APPEND, 0600);
    int listener = socket(AF_INET, SOCK_STREAM, 0);
    struct sockaddr_in address = {.sin_family = AF_INET, .sin_addr.s_addr = htonl(INADDR_LOOPBACK)};
    socklen_t size = sizeof address;
    if (file < 0 || written > sizeof request || answered > sizeof answer - 128 || bind(listener, (void *)&address, size) || listen(listener, 1))
        return 1;
    getsockname(listener, (void *)&address, &size);
    printf("%d\n", ntohs(address.sin_port));
    fflush(stdout);
    int connection = accept(listener, NULL, NULL), on = 1;
    setsockopt(connection, IPPROTO_TCP, TCP_NODELAY, &on, sizeof on);
    int head = snprintf(answer, 128, "HTTP/1.1 200 OK\r\nContent-Type: application/json\r\nContent-Length: %zu\r\n\r\n", answered);
    size_t length = (size_t)head + answered;
    while (read_request(connection)) {
        if (!append(file, written) || !append(file, 1))
            return 1;
        if (send(connection, answer, length, 0) != (ssize_t)length)
            return 1;
    }
    return 0;
}
