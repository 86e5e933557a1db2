/* Requests that are carried out on a record file one at a time, with few calls of the system: the floor beside the server.
 *
 *     floor write FILE SIZE    a read of standard input for each 256 KiB, and for each request one writev of the length, the
 *                              bytes and the length again, and one write of the reply
 *     floor read FILE SIZE     for each request one pread of the bytes, the length after them and the length of the next
 *                              record, which needs SIZE to be known, and one writev of the reply and the bytes
 *
 * It trusts its input: an open, and then requests of that kind for SIZE bytes, 1 to 262,144, each. It ends with 0 where all
 * went well. */
#include <endian.h>
#include <fcntl.h>
#include <stdint.h>
#include <stdio.h>
#include <stdlib.h>
#include <string.h>
#include <sys/uio.h>
#include <unistd.h>

enum { PIECE = 262144 };
static char input[3 * PIECE], record[PIECE + 8], head[16], reply[16];
static size_t start, end, head_size, reply_size;

/* Reads until so many bytes of the input are there, and answers whether they are. */
static int has(size_t wanted) {
    while (end - start < wanted) {
        if (start) memmove(input, input + start, end - start);
        end -= start, start = 0;
        ssize_t count = read(0, input + end, PIECE);
        if (count < 0) exit(1);
        if (count == 0) return 0;
        end += count;
    }
    return 1;
}

static int write_records(int file, uint32_t size) {
    uint32_t length = htole32(size);
    while (has(head_size + size)) {
        struct iovec parts[] = {{&length, 4}, {input + start + head_size, size}, {&length, 4}};
        if (writev(file, parts, 3) != (ssize_t)size + 8 || write(1, reply, reply_size) != (ssize_t)reply_size) return 1;
        start += head_size + size;
    }
    return start != end;
}

static int read_records(int file, uint32_t size) {
    uint32_t length = htole32(size), next = 0;
    off_t at = 4;
    if (pread(file, &next, 4, 0) != 4) return 1;
    for (; has(head_size); start += head_size, at += size + 8) {
        ssize_t count = pread(file, record, size + 8, at);
        if (next != length || count < (ssize_t)size + 4 || memcmp(record + size, &length, 4)) return 1;
        memcpy(&next, record + size + 4, 4);
        struct iovec parts[] = {{reply, reply_size}, {record, size}};
        if (writev(1, parts, 2) != (ssize_t)(reply_size + size)) return 1;
    }
    return start != end;
}

int main(int argc, char **words) {
    if (argc != 4) return 1;
    int writes = words[1][0] == 'w', lines = 0, file = open(words[2], writes ? O_WRONLY | O_APPEND : O_RDONLY);
    uint32_t size = atoi(words[3]);
    head_size = sprintf(head, "%c%u\n", writes ? 'W' : 'R', size);
    reply_size = sprintf(reply, "A%u\n", size);
    while (lines < 2 && has(1)) lines += input[start++] == '\n';
    if (file < 0 || size > PIECE || write(1, "A0\n", 3) != 3) return 1;
    return writes ? write_records(file, size) : read_records(file, size);
}
