/* Two threads call the C library at the same time, each with handles of its own: two globs, two sets and an ignore list. Each builds
 * them 50 times, asks them about paths, looks for paths that two of them have in common, and frees them; and it compares expressions,
 * which takes no handle. Exits with 1 if an answer is wrong. */
#include <pthread.h>
#include <stddef.h>
#include <stdint.h>
#include <stdio.h>
#include <string.h>

#include "wax.h"

static const char *const PATHS[] = {"src/a.c", "src/b/c.rs", "doc/a.md", "src/keep.log"};
/* which of the paths the glob and the set match, and the list ignores */
static const int MATCHED[] = {1, 1, 0, 0}, IN_SET[] = {0, 1, 1, 0}, IGNORED[] = {0, 0, 1, 0};

/* how the calls that compare two expressions are declared */
typedef int32_t comparison(const char *, size_t, const char *, size_t, size_t, char *, size_t, size_t *, size_t *, wax_span *);

/* Returns 1 if a call that compares two expressions doesn't find this path, or finds one though this is NULL. */
static int is_wrong(comparison *call, const char *first, const char *second, const char *path) {
  char output[64];
  size_t written, which;
  wax_span span;
  int32_t status = call(first, strlen(first), second, strlen(second), 1000, output, sizeof output, &written, &which, &span);
  if (path == NULL) return status != 0;
  return status != 1 || written != strlen(path) || memcmp(output, path, written) != 0;
}

/* Returns how many comparisons are wrong. */
static int wrong_comparisons(void) {
  return is_wrong(wax_overlap, "src/**/*.{go,rs}", "**/test_*", "src/test_.go") + is_wrong(wax_overlap, "*.rs", "src/**", NULL) +
         is_wrong(wax_difference, "a/**", "a/*", "a") + is_wrong(wax_difference, "src/*.go", "src/**/*.{go,rs}", NULL) +
         is_wrong(wax_compare, "a/*", "a/**", "a") + is_wrong(wax_compare, "<**/a:1,>", "**/a", NULL);
}

/* Returns how many comparisons of two handles, and lists of lines, are wrong. */
static int wrong_pairs(wax_glob *glob, wax_set *set, wax_ignore *list) {
  wax_glob *other_glob;
  wax_set *other_set;
  wax_ignore *other_list;
  wax_span span;
  char output[64];
  size_t written, which, line, found[3], count;
  const size_t lengths[] = {7, 5};
  if (wax_glob_new("**/t_*", 6, &other_glob, &span)) return 1;
  if (wax_set_new("docs/**R*.md", 12, lengths, 2, &other_set, &which, &span)) return 1;
  if (wax_ignore_new("**/*.log\n", 9, &other_list, &line)) return 1;
  int wrong = wax_glob_overlap(glob, other_glob, 1000, output, sizeof output, &written) != 1;
  wrong += written != 8 || memcmp(output, "src/t_.c", 8) != 0;
  wrong += wax_set_overlap(set, other_set, 1000, output, sizeof output, &written) != 1;
  wrong += written != 4 || memcmp(output, "R.md", 4) != 0;
  wrong += wax_ignore_difference(other_list, list, 1000, output, sizeof output, &written) != 1;
  wrong += written != 8 || memcmp(output, "keep.log", 8) != 0;
  wrong += wax_ignore_tidy(list, 1000, found, 3, &count) != 0 || count != 3 || found[2] != 2;
  wax_ignore_free(other_list);
  wax_glob_free(other_glob);
  wax_set_free(other_set);
  return wrong;
}

static int wrong_answers(void) {
  wax_glob *glob;
  wax_set *set;
  wax_ignore *list;
  wax_span span;
  size_t which, line;
  const size_t lengths[] = {7, 7};
  if (wax_glob_new("src/**/*.{c,rs}", 15, &glob, &span)) return 1;
  if (wax_set_new("**/*.rs**/*.md", 14, lengths, 2, &set, &which, &span)) return 1;
  if (wax_ignore_new("doc/**\n**/*.log\n!**/keep.log\n", 29, &list, &line)) return 1;
  int wrong = 0;
  for (size_t i = 0; i < sizeof PATHS / sizeof *PATHS; i++) {
    size_t length = strlen(PATHS[i]);
    wrong += wax_glob_is_match(glob, PATHS[i], length) != MATCHED[i];
    wrong += wax_set_is_match(set, PATHS[i], length) != IN_SET[i];
    wrong += wax_ignore_is_ignored(list, PATHS[i], length) != IGNORED[i];
  }
  wrong += wrong_pairs(glob, set, list) + wrong_comparisons();
  wax_glob_free(glob);
  wax_set_free(set);
  wax_ignore_free(list);
  return wrong;
}

static void *work(void *found) {
  for (int round = 0; round < 50; round++) *(int *)found += wrong_answers();
  return NULL;
}

int main(void) {
  pthread_t threads[2];
  int wrong[2] = {0, 0};
  for (int i = 0; i < 2; i++) {
    if (pthread_create(&threads[i], NULL, work, &wrong[i])) return 2;
  }
  for (int i = 0; i < 2; i++) pthread_join(threads[i], NULL);
  printf("%d answers are wrong\n", wrong[0] + wrong[1]);
  return wrong[0] + wrong[1] != 0;
}
