/* A plain read loop, to measure client_messages beside. It reads a file whole, and takes it from there as from a connection in
   memory: in pieces of the given size, through a buffer, to the end of a block that grows. It knows no rule of messages.
   Usage: plain_read FILE SIZE, where SIZE is 1 to 4096. It prints how many bytes it took. */
#include <fcntl.h>
#include <stdio.h>
#include <stdlib.h>
#include <string.h>
#include <unistd.h>

struct block {
    char *bytes;
    size_t count, room;
};

static void append(struct block *block, const char *bytes, size_t count)
{
    if (count > block->room - block->count) {
        while (count > block->room - block->count) block->room = block->room ? 2 * block->room : 4096;
        block->bytes = realloc(block->bytes, block->room);
        if (block->bytes == NULL) exit(1);
    }
    memcpy(block->bytes + block->count, bytes, count);
    block->count += count;
}

int main(int argc, char **argv)
{
    static char piece[65536];
    struct block file = {0}, taken = {0};
    size_t size = argc == 3 ? strtoul(argv[2], NULL, 10) : 0;
    int fd = argc == 3 ? open(argv[1], O_RDONLY) : -1;
    ssize_t got;
    if (fd < 0 || size < 1 || size > 4096) {
        fprintf(stderr, "usage: plain_read FILE SIZE\n");
        return 2;
    }
    while ((got = read(fd, piece, sizeof piece)) > 0) append(&file, piece, got);
    if (got < 0) return 1;
    for (size_t at = 0; at < file.count; at += size) {
        size_t count = file.count - at < size ? file.count - at : size;
        memcpy(piece, file.bytes + at, count);
        append(&taken, piece, count);
    }
    printf("%zu bytes, the last one %d\n", taken.count, taken.count ? taken.bytes[taken.count - 1] : -1);
    return 0;
}
