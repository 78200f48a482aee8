/* A guest as users have them: it lists its directory, reads its configuration by a link, keeps a log, and puts a new
   file into the place of an old one by a rename. Then it asks for what it has no right to.

   `./build` makes guest.wasm of it. */

#include <dirent.h>
#include <errno.h>
#include <fcntl.h>
#include <stdio.h>
#include <string.h>
#include <sys/stat.h>
#include <unistd.h>

static int fail(const char *what) {
    fprintf(stderr, "guest: %s: %s\n", what, strerror(errno));
    return 1;
}

static int list(const char *path) {
    DIR *directory = opendir(path);
    if (directory == NULL) return fail(path);
    int count = 0;
    for (struct dirent *entry = readdir(directory); entry != NULL; entry = readdir(directory)) {
        if (strcmp(entry->d_name, ".") != 0 && strcmp(entry->d_name, "..") != 0) count += 1;
    }
    closedir(directory);
    printf("%s has %d names\n", path, count);
    return 0;
}

static int show(const char *path) {
    char bytes[64];
    int file = open(path, O_RDONLY);
    if (file < 0) return fail(path);
    for (ssize_t size = read(file, bytes, sizeof bytes); size > 0; size = read(file, bytes, sizeof bytes)) {
        fwrite(bytes, 1, (size_t)size, stdout);
    }
    return close(file);
}

static int write_to(const char *path, int flags, const char *text) {
    int file = open(path, O_WRONLY | O_CREAT | flags, 0666);
    if (file < 0) return fail(path);
    if (write(file, text, strlen(text)) < 0) return fail(path);
    return close(file);
}

static void refused(const char *path) {
    int file = open(path, O_RDONLY);
    printf("%s: %s\n", path, file < 0 ? "refused" : "opened");
    if (file >= 0) close(file);
}

int main(int count, char **words) {
    const char *name = count > 1 ? words[1] : "report";
    char path[64];
    struct stat status;

    if (list("/") != 0 || show("/current") != 0) return 1;
    if (write_to("/logs/today", O_APPEND, "listed\n") != 0 || show("/logs/today") != 0) return 1;

    if (mkdir("/out", 0777) != 0) return fail("/out");
    if (write_to("/out/new", O_TRUNC, "port = 8080\n") != 0) return 1;
    snprintf(path, sizeof path, "/out/%s", name);
    if (rename("/out/new", path) != 0) return fail(path);
    if (stat(path, &status) != 0) return fail(path);
    printf("%s has %d bytes\n", path, (int)status.st_size);

    refused("/../secret");
    refused("/outside");
    refused("/out/nothing");
    if (rmdir("/out") == 0) return fail("/out went away");
    return list("/out");
}
