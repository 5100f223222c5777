/* walk FOLDER: writes what `globs walk FOLDER '**'` writes, by the same system calls: openat, getdents64 and close for each folder,
 * and statx for each entry. So it shows the least that a walk can take as long as these calls are made. bench/walk builds it. */
#define _GNU_SOURCE
#include <dirent.h>
#include <fcntl.h>
#include <stdio.h>
#include <stdlib.h>
#include <string.h>
#include <sys/stat.h>
#include <sys/syscall.h>
#include <unistd.h>

/* an entry as the system lists it */
struct listed {
    ino64_t inode;
    off64_t offset;
    unsigned short size;
    unsigned char kind;
    char name[];
};

enum { LISTED = 8192, LONGEST = 1 << 16 };

static char path[LONGEST];
static size_t root_length;

/* Writes the path from the root on, and returns whether a folder is there. */
static int write_entry(void) {
    struct statx found;
    if (statx(AT_FDCWD, path, AT_SYMLINK_NOFOLLOW, STATX_ALL, &found) != 0) {
        return 0;
    }
    if (path[root_length] != 0) {
        fputs(path + root_length + 1, stdout);
    }
    putchar('\n');
    return S_ISDIR(found.stx_mode);
}

/* Walks the folder with this path, of this length. */
static void walk(size_t length) {
    int folder = openat(AT_FDCWD, path, O_RDONLY | O_NOFOLLOW | O_CLOEXEC | O_DIRECTORY);
    char *entries = malloc(LISTED);
    long size;
    if (folder < 0 || entries == NULL) {
        fprintf(stderr, "walk: %s isn't read\n", path);
        free(entries);
        return;
    }
    while ((size = syscall(SYS_getdents64, folder, entries, LISTED)) > 0) {
        for (long at = 0; at < size;) {
            struct listed *entry = (struct listed *)(entries + at);
            size_t more = strlen(entry->name);
            at += entry->size;
            if (strcmp(entry->name, ".") == 0 || strcmp(entry->name, "..") == 0 || length + more + 2 > LONGEST) {
                continue;
            }
            path[length] = '/';
            memcpy(path + length + 1, entry->name, more + 1);
            if (write_entry()) {
                walk(length + 1 + more);
            }
        }
    }
    close(folder);
    free(entries);
}

int main(int count, char **words) {
    if (count != 2 || (root_length = strlen(words[1])) >= LONGEST) {
        fputs("usage: walk FOLDER\n", stderr);
        return 2;
    }
    setvbuf(stdout, NULL, _IOFBF, LISTED);
    memcpy(path, words[1], root_length + 1);
    if (write_entry()) {
        walk(root_length);
    }
    return fflush(stdout) == 0 ? 0 : 1;
}
