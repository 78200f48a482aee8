/* A guest that changes its directory in each way: it has a file `old`, whose other name is `again`, a directory `sub`
   and a link `way` to it. With the word `trap` behind its name it stops then by itself. */

#include <errno.h>
#include <fcntl.h>
#include <stdio.h>
#include <stdlib.h>
#include <string.h>
#include <sys/stat.h>
#include <unistd.h>

static void need(int is_so, const char *what) {
    if (!is_so) {
        fprintf(stderr, "moves: %s: %s\n", what, strerror(errno));
        exit(1);
    }
}

static void write_to(const char *path, int flags, const char *text) {
    int file = open(path, O_WRONLY | flags, 0666);
    need(file >= 0 && write(file, text, strlen(text)) == (ssize_t)strlen(text) && close(file) == 0, path);
}

int main(int count, char **words) {
    struct timespec times[2] = {{1, 5}, {1, 7}}, modified[2] = {{0, UTIME_OMIT}, {2, 0}};
    write_to("/again", O_APPEND, "more\n");
    need(rename("/sub", "/new") == 0, "a directory gets another name");
    need(rename("/old", "/new/moved") == 0, "a file is moved");
    need(unlink("/way") == 0 && symlink("new", "/way") == 0, "a link is replaced");
    write_to("/way/made", O_CREAT | O_EXCL, "made\n");
    need(utimensat(AT_FDCWD, "/new/made", times, 0) == 0, "times");
    need(utimensat(AT_FDCWD, "/new/moved", modified, 0) == 0, "the modified time");
    need(symlink("made", "/new/to") == 0 && symlink("../x", "/out") == 0, "links");
    if (count > 1 && strcmp(words[1], "trap") == 0) __builtin_trap();
    return 0;
}
