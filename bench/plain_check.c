/* The least that a check of a G-code file takes: it reads the file, finds the text of each line without its comment and the
 * blanks around it, keeps a word of 64 bits a command as octo does, and looks at each command's first byte once. It tests
 * neither bytes nor lengths nor temperatures. For bench/check.sh. */
#include <fcntl.h>
#include <stdint.h>
#include <stdio.h>
#include <stdlib.h>
#include <unistd.h>

static int is_blank(unsigned char byte) { return byte == ' ' || byte == '\t' || byte == '\r'; }

int main(int count, char **arguments)
{
    int file = count == 2 ? open(arguments[1], O_RDONLY) : -1;
    size_t room = 16384, length = 0, commands = 0, skipped = 0, words_room = 1024, at = 0, asking = 0;
    uint64_t line = 0, *words = malloc(words_room * 8);
    unsigned char *bytes = malloc(room);
    ssize_t got;
    if (file < 0)
        return 2;
    while ((got = read(file, bytes + length, 16384)) > 0) {
        length += got;
        if (length + 16384 > room)
            bytes = realloc(bytes, room *= 2);
    }
    while (at < length) {
        size_t end = at, begin = at, next;
        while (end < length && bytes[end] != '\n' && bytes[end] != ';' && bytes[end] != '*')
            end++;
        for (next = end; next < length && bytes[next] != '\n'; next++)
            ;
        while (begin < end && is_blank(bytes[begin]))
            begin++;
        while (end > begin && is_blank(bytes[end - 1]))
            end--;
        line++;
        if (begin == end) {
            skipped++;
        } else {
            if (commands == words_room)
                words = realloc(words, (words_room *= 2) * 8);
            words[commands++] = begin + ((uint64_t)(end - begin) << 28) + (line << 35);
        }
        at = next + 1;
    }
    for (size_t i = 0; i < commands; i++)
        asking += (bytes[words[i] & 0xfffffff] | 32) == 'm';
    printf("commands %zu\nskipped %zu\nbegin with M %zu\n", commands, skipped, asking);
    return 0;
}
