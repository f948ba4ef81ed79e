// Reads a file into memory of its own, a mebibyte at a time, as a load has to.
#include <fcntl.h>
#include <stdlib.h>
#include <sys/stat.h>
#include <unistd.h>

int main(int count, char **words) {
    struct stat seen;
    int file = count == 2 ? open(words[1], O_RDONLY) : -1;
    if (file < 0 || fstat(file, &seen) != 0) return 1;
    char *bytes = malloc(seen.st_size);
    if (bytes == NULL) return 1;
    for (off_t done = 0; done < seen.st_size;) {
        ssize_t taken = read(file, bytes + done, 1 << 20 < seen.st_size - done ? 1 << 20 : seen.st_size - done);
        if (taken <= 0) return 1;
        done += taken;
    }
    return 0;
}
