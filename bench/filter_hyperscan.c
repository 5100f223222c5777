/* filter_hyperscan REGEX FILE: writes the lines of a file that match the regex, by Hyperscan. bench/filters builds and times it. */
#include <stdio.h>
#include <stdlib.h>
#include <string.h>

#include <hs.h>

/* Returns the bytes of a file, and how many there are; or null. */
static char *bytes_of(const char *path, size_t *length) {
    FILE *file = fopen(path, "rb");
    if (file == NULL || fseek(file, 0, SEEK_END) != 0) {
        return NULL;
    }
    *length = (size_t)ftell(file);
    rewind(file);
    char *text = malloc(*length + 1);
    if (text != NULL && fread(text, 1, *length, file) != *length) {
        return NULL;
    }
    fclose(file);
    return text;
}

/* Notes that there is a match, and ends the scan of the line. */
static int note(unsigned id, unsigned long long from, unsigned long long to, unsigned flags, void *found) {
    (void)id, (void)from, (void)to, (void)flags;
    *(int *)found = 1;
    return 1;
}

int main(int count, char **words) {
    hs_database_t *database = NULL;
    hs_scratch_t *scratch = NULL;
    hs_compile_error_t *error = NULL;
    size_t length = 0;
    char *text = count == 3 ? bytes_of(words[2], &length) : NULL;
    if (text == NULL) {
        fputs("usage: filter_hyperscan REGEX FILE\n", stderr);
        return 2;
    }
    const unsigned flags = HS_FLAG_SINGLEMATCH | HS_FLAG_DOTALL | HS_FLAG_ALLOWEMPTY;
    if (hs_compile(words[1], flags, HS_MODE_BLOCK, NULL, &database, &error) != HS_SUCCESS) {
        fprintf(stderr, "filter_hyperscan: %s\n", error->message);
        return 2;
    }
    if (hs_alloc_scratch(database, &scratch) != HS_SUCCESS) {
        return 2;
    }
    for (char *line = text, *end; line < text + length; line = end + 1) {
        int found = 0;
        end = memchr(line, '\n', (size_t)(text + length - line));
        end = end == NULL ? text + length : end;
        hs_scan(database, line, (unsigned)(end - line), 0, scratch, note, &found);
        if (found) {
            fwrite(line, 1, (size_t)(end - line), stdout);
            putchar('\n');
        }
    }
    return fflush(stdout) == 0 ? 0 : 1;
}
