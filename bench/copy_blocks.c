/* Copies a file to another, 512 bytes a call, by pread and pwrite: what bench/files.py compares a move of files with. */
#define _XOPEN_SOURCE 700
#include <fcntl.h>
#include <stdio.h>
#include <sys/stat.h>
#include <unistd.h>

int main(int argc, char **argv)
{
    char block[512];
    struct stat from_is;
    int from, to;
    if (argc != 3) {
        fputs("copy_blocks FROM TO\n", stderr);
        return 1;
    }
    from = open(argv[1], O_RDONLY);
    to = open(argv[2], O_WRONLY | O_CREAT, 0666);
    if (from < 0 || to < 0 || fstat(from, &from_is) < 0 || ftruncate(to, from_is.st_size) < 0) {
        perror("copy_blocks");
        return 1;
    }
    for (off_t at = 0; at < from_is.st_size; at += 512) {
        if (pread(from, block, 512, at) != 512 || pwrite(to, block, 512, at) != 512) {
            perror("copy_blocks");
            return 1;
        }
    }
    return fsync(from) < 0 || fsync(to) < 0;
}
