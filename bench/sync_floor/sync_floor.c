// What two syncs an append cost on this machine, with nothing else: a write of SIZE bytes behind a gate byte, a sync, a
// write of the gate byte, a sync; COUNT times.
#include <fcntl.h>
#include <stdio.h>
#include <stdlib.h>
#include <string.h>
#include <unistd.h>

int main(int words, char **word) {
    if (words != 4) return 2;
    long size = atol(word[2]), count = atol(word[3]);
    int file = open(word[1], O_RDWR | O_CREAT | O_TRUNC, 0644);
    char *bytes = calloc(1, (size_t)size);
    char gate = 1;
    if (file < 0 || !bytes || pwrite(file, "\1\0", 2, 0) != 2 || fdatasync(file)) return 1;
    off_t place = 1;
    for (long k = 0; k < count; k++) {
        if (pwrite(file, bytes, (size_t)size, place + 1) != size || fdatasync(file)) return 1;
        if (pwrite(file, &gate, 1, place) != 1 || fdatasync(file)) return 1;
        place += size;
    }
    return 0;
}
