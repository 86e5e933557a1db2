/* One block a turn over the loopback, with few calls of the system: the floor beside a dump, and beside a volume that is read back.
 *
 *     netfloor serve FILE             prints the port that it listens at, and serves one connection after the other. For each write
 *                                     one writev appends the length, the bytes and the length again to FILE, and one send answers;
 *                                     for each read one pread gets the bytes, the length after them and the length of the next
 *                                     record, and one writev answers. A connection that wrote is synced once, at its end. With `-`
 *                                     for FILE the records are kept in memory
 *     netfloor write PORT SIZE FILE   for each block of FILE one pread into the text of a request, one write, and a read of the answer;
 *                                     it ends once the server has ended the connection
 *     netfloor read PORT SIZE FILE    for each record one write of the request, as many reads as its answer comes in, and one write to
 *                                     FILE, up to the first mark or the end; FILE is synced once, at its end
 *
 * Both ends trust what comes. SIZE is 1 to 262,144. A client ends with 0 where all went well. */
#include <arpa/inet.h>
#include <endian.h>
#include <fcntl.h>
#include <netinet/tcp.h>
#include <stdint.h>
#include <stdio.h>
#include <stdlib.h>
#include <string.h>
#include <sys/mman.h>
#include <sys/socket.h>
#include <sys/uio.h>
#include <unistd.h>

enum { GREATEST = 262144, ROOM = 1 << 30 };
static char text[GREATEST + 32], *memory;
static size_t kept;
static int file = -1;

/* The bytes of a request or an answer up to its first line feed, with it; 0 where that has not come. */
static size_t line(size_t end) {
    char *feed = memchr(text, '\n', end < 16 ? end : 16);
    return feed ? feed - text + 1 : 0;
}

static int keep(char *data, uint32_t size) {
    uint32_t length = htole32(size);
    struct iovec parts[] = {{&length, 4}, {data, size}, {&length, 4}};
    if (!memory) return writev(file, parts, 3) == (ssize_t)size + 8;
    for (int part = 0; part < 3; kept += parts[part++].iov_len) memcpy(memory + kept, parts[part].iov_base, parts[part].iov_len);
    return 1;
}

/* Answers with the record whose length stands before the place, which goes to the next; with none where that length is 0. */
static int give(int stream, uint32_t *next, size_t *place) {
    uint32_t size = le32toh(*next);
    char *data = memory ? memory + *place : text, reply[16];
    int head = sprintf(reply, "A%u\n", size);
    if (size) {
        memset(text + size + 4, 0, 4);
        if (!memory && pread(file, text, size + 8, *place) < (ssize_t)size + 4) return 0;
        memcpy(next, data + size + 4, 4);
        *place += size + 8;
    }
    struct iovec parts[] = {{reply, head}, {data, size}};
    return writev(stream, parts, 2) == (ssize_t)(head + size);
}

/* Keeps the bytes of a write, and answers it. */
static int take(int stream, char *data, uint32_t size) {
    char reply[16];
    int head = sprintf(reply, "A%u\n", size);
    return keep(data, size) && send(stream, reply, head, MSG_NOSIGNAL) == head;
}

static int serve(int stream) {
    uint32_t next = 0;
    size_t place = 4, end = 0;
    ssize_t count;
    int wrote = 0;
    if (memory) memcpy(&next, memory, 4);
    else if (pread(file, &next, 4, 0) < 0) return 0;
    while ((count = recv(stream, text + end, sizeof text - end, 0)) > 0) {
        size_t head = line(end += count);
        uint32_t size = head ? atoi(text + 1) : 0;
        int writes = text[0] == 'W';
        if (!head || (writes && end < head + size)) continue;
        if (!(writes ? take(stream, text + head, size) : give(stream, &next, &place))) return 0;
        wrote |= writes;
        end = 0;
    }
    return count == 0 && (!wrote || memory || fsync(file) == 0);
}

static int at_once(int stream) {
    return setsockopt(stream, IPPROTO_TCP, TCP_NODELAY, &(int){1}, sizeof(int));
}

static int listen_and_serve(const char *name) {
    struct sockaddr_in address = {.sin_family = AF_INET, .sin_addr.s_addr = htonl(INADDR_LOOPBACK)};
    socklen_t length = sizeof address;
    int listener = socket(AF_INET, SOCK_STREAM, 0), stream;
    if (strcmp(name, "-")) file = open(name, O_RDWR | O_APPEND);
    else memory = mmap(0, ROOM, PROT_READ | PROT_WRITE, MAP_PRIVATE | MAP_ANONYMOUS | MAP_NORESERVE, -1, 0);
    if (file < 0 && (!memory || memory == MAP_FAILED)) return 1;
    if (bind(listener, (struct sockaddr *)&address, length) || listen(listener, 1)) return 1;
    if (getsockname(listener, (struct sockaddr *)&address, &length)) return 1;
    printf("%d\n", ntohs(address.sin_port));
    fflush(stdout);
    while ((stream = accept(listener, 0, 0)) >= 0) {
        if (at_once(stream) || !serve(stream)) return 1;
        close(stream);
    }
    return 1;
}

/* Reads the answer to a write, mostly by one call, and answers whether it is a number. */
static int answered(int stream) {
    char answer[16];
    for (size_t end = 0; !end || answer[end - 1] != '\n';) {
        ssize_t count = end < sizeof answer ? read(stream, answer + end, sizeof answer - end) : 0;
        if (count <= 0) return 0;
        end += count;
    }
    return answer[0] == 'A';
}

static int write_blocks(int stream, int source, size_t size) {
    int head = sprintf(text, "W%zu\n", size);
    char none;
    ssize_t count;
    for (off_t at = 0; (count = pread(source, text + head, size, at)) > 0; at += count) {
        memset(text + head + count, 0, size - count);
        if (write(stream, text, head + size) != (ssize_t)(head + size)) return 1;
        if (!answered(stream)) return 1;
    }
    return count < 0 || shutdown(stream, SHUT_WR) || read(stream, &none, 1) != 0;
}

/* Reads the answer to a read, and answers how long it is; 0 where it did not come whole. */
static size_t received(int stream, size_t *head) {
    size_t end = 0;
    do {
        ssize_t count = recv(stream, text + end, sizeof text - end, 0);
        if (count <= 0) return 0;
        *head = line(end += count);
    } while (!*head || end < *head + atoi(text + 1));
    return end;
}

static int read_blocks(int stream, int sink, size_t size) {
    char request[16];
    int asked = sprintf(request, "R%zu\n", size);
    size_t head, end;
    do {
        if (write(stream, request, asked) != asked || !(end = received(stream, &head))) return 1;
        if (end > head && write(sink, text + head, end - head) != (ssize_t)(end - head)) return 1;
    } while (end > head);
    return text[0] != 'A' || fsync(sink) != 0;
}

int main(int argc, char **words) {
    if (argc == 3) return listen_and_serve(words[2]);
    if (argc != 5) return 1;
    int reads = words[1][0] == 'r', stream = socket(AF_INET, SOCK_STREAM, 0);
    struct sockaddr_in address = {.sin_family = AF_INET, .sin_port = htons(atoi(words[2])), .sin_addr.s_addr = htonl(INADDR_LOOPBACK)};
    size_t size = atoi(words[3]);
    file = open(words[4], reads ? O_WRONLY | O_CREAT | O_TRUNC : O_RDONLY, 0666);
    if (file < 0 || size < 1 || size > GREATEST) return 1;
    if (connect(stream, (struct sockaddr *)&address, sizeof address) || at_once(stream)) return 1;
    return reads ? read_blocks(stream, file, size) : write_blocks(stream, file, size);
}
