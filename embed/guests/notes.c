/* A guest as users have them, by stdio and directories: it keeps records and notes in files, seeks in them, renames,
   links and lists, counts the lines of its standard input, and tells what it did. Words behind its name are notes to
   add; without any it has some of its own. What it writes is the same on each machine. */

#include <dirent.h>
#include <errno.h>
#include <stdio.h>
#include <stdlib.h>
#include <string.h>
#include <sys/stat.h>
#include <unistd.h>

#define RECORD 32
#define MANY 200
#define NAMES 64

static void need(int is_so, const char *what) {
    if (!is_so) {
        fprintf(stderr, "notes: %s: %s\n", what, strerror(errno));
        exit(1);
    }
}

/* A file of records of a fixed size, which are written out of order by seeking, and then read back in order. */
static void keep_records(const char *path) {
    char record[RECORD];
    FILE *file = fopen(path, "w+");
    need(file != NULL, path);
    for (int step = 0; step < MANY; step += 1) {
        int place = step * 37 % MANY;
        memset(record, ' ', RECORD);
        snprintf(record, RECORD, "record %d of step %d", place, step);
        need(fseek(file, (long)place * RECORD, SEEK_SET) == 0, "seek");
        need(fwrite(record, 1, RECORD, file) == RECORD, "write");
    }
    need(fseek(file, 0, SEEK_END) == 0 && ftell(file) == MANY * RECORD, "size");
    rewind(file);
    for (int place = 0; place < MANY; place += 1) {
        int found = -1;
        need(fread(record, 1, RECORD, file) == RECORD, "read");
        need(sscanf(record, "record %d", &found) == 1 && found == place, "a record in its place");
    }
    need(fclose(file) == 0, "close");
    printf("%d records are in their places\n", MANY);
}

static void add_note(const char *folder, int number, const char *text) {
    char path[128], last[128];
    snprintf(path, sizeof path, "%s/draft", folder);
    snprintf(last, sizeof last, "%s/note%03d", folder, number);
    FILE *file = fopen(path, "a");
    need(file != NULL, path);
    need(fprintf(file, "%d: %s\n", number, text) > 0 && fclose(file) == 0, "write");
    need(rename(path, last) == 0, "rename");
}

static int by_name(const void *left, const void *right) {
    return strcmp(*(char *const *)left, *(char *const *)right);
}

static int list(const char *path) {
    char *names[NAMES];
    int count = 0;
    DIR *directory = opendir(path);
    need(directory != NULL, path);
    for (struct dirent *entry = readdir(directory); entry != NULL; entry = readdir(directory)) {
        if (entry->d_name[0] != '.' && count < NAMES) {
            names[count] = strdup(entry->d_name);
            count += 1;
        }
    }
    closedir(directory);
    qsort(names, (size_t)count, sizeof names[0], by_name);
    for (int place = 0; place < count; place += 1) {
        printf("%s/%s\n", path, names[place]);
        free(names[place]);
    }
    return count;
}

static void copy(const char *from, const char *to) {
    char bytes[100];
    FILE *source = fopen(from, "r"), *target = fopen(to, "w");
    need(source != NULL && target != NULL, "copy");
    for (size_t size = fread(bytes, 1, sizeof bytes, source); size > 0; size = fread(bytes, 1, sizeof bytes, source)) {
        need(fwrite(bytes, 1, size, target) == size, "copy");
    }
    need(fclose(source) == 0 && fclose(target) == 0, "copy");
}

static void move_about(void) {
    struct stat status;
    need(mkdir("/old", 0777) == 0, "/old");
    need(rename("/notes", "/old/notes") == 0, "a directory is moved");
    need(stat("/notes", &status) != 0 && errno == ENOENT, "the old name is gone");
    copy("/records", "/copy");
    need(stat("/copy", &status) == 0 && status.st_size == MANY * RECORD, "the copy's size");
    need(truncate("/copy", 40) == 0 && stat("/copy", &status) == 0 && status.st_size == 40, "a file is cut");
    need(link("/copy", "/second") == 0 && symlink("old/notes", "/way") == 0, "links");
    need(unlink("/copy") == 0, "a name is removed");
    need(rmdir("/old") != 0 && errno == ENOTEMPTY, "a directory with names stays");
}

static void count_input(void) {
    int lines = 0;
    for (int byte = getchar(); byte != EOF; byte = getchar()) {
        lines += byte == '\n';
    }
    printf("standard input has %d lines\n", lines);
}

int main(int count, char **words) {
    const char *own[] = {"milk", "bread", "a proof"};
    const char *name = getenv("NAME");
    need(mkdir("/notes", 0777) == 0, "/notes");
    keep_records("/records");
    for (int place = 0; count <= 1 && place < 3; place += 1) {
        add_note("/notes", place, own[place]);
    }
    for (int place = 1; place < count; place += 1) {
        add_note("/notes", place, words[place]);
    }
    move_about();
    printf("%d names below the link\n", list("/way"));
    count_input();
    printf("done, %s\n", name ? name : "nobody");
    fprintf(stderr, "notes: %d words\n", count - 1);
    return count > 1 ? 3 : 0;
}
