/* Matches paths against globs, and checks them against ignore lists. README.md of the crate wax_c says what is proved.
 *
 *     wax_glob *glob;
 *     wax_span span;
 *     int32_t status = wax_glob_new("src/{b,c}.rs", 12, &glob, &span);
 *     if (status == 0 && wax_glob_is_match(glob, "src/b.rs", 8) == 1) puts("matches");
 *     wax_glob_free(glob);
 *
 * Each text is passed as a pointer and a length in bytes. It has to be UTF-8, and needs no zero byte at its end.
 *
 * A function that returns an int32_t returns 1 or 0 for yes or no, 0 for success, or minus the number of an error (and
 * those that compare expressions or lines return 2 if they don't decide):
 *
 *     1       the expression can't be parsed
 *     2 to 8  it breaks a rule
 *     9       it is too large
 *     10      an allocation failed
 *     20      a text isn't UTF-8
 *     21      the output is too small
 *
 * Callers have to ensure what no call can check:
 *
 * - No pointer is null, except for a handle that is passed to the function that frees it.
 * - Behind each pointer are as many bytes as its length says, and what a call writes overlaps no other argument.
 * - A handle was made by the function for its type, and wasn't freed. One call at a time uses it, in any thread.
 *
 * A call whose handle isn't const keeps what it learns from a path in the handle, so that the next paths take less time. No
 * answer depends on it. A handle keeps about 2 MiB at most, or up to 16 MiB if its expressions are long; a handle of a set
 * keeps up to 16 MiB more. Freeing the handle frees this.
 */
#ifndef WAX_H
#define WAX_H

#include <stddef.h>
#include <stdint.h>

#ifdef __cplusplus
extern "C" {
#endif

/* Returns 1 if the expression matches the path, 0 if not. */
int32_t wax_is_match(const char *expression, size_t expression_length, const char *path, size_t path_length);

/* Writes the lines of the input that the expression matches to the beginning of the output, each with a line feed,
 * and the number of their bytes to `written`. Lines that aren't UTF-8 are excluded. An output of input_length + 1
 * bytes is always large enough. After the error 21, `written` is the number of bytes that are needed; after others
 * it is 0. The output is unchanged after any error. */
int32_t wax_filter(const char *expression, size_t expression_length, const char *input, size_t input_length,
                   char *output, size_t output_length, size_t *written);

/* Returns how many lines of an input aren't UTF-8. wax_filter, wax_glob_filter and wax_ignore_filter exclude these, whatever
 * else they keep. It has no errors. */
size_t wax_count_not_text(const char *input, size_t input_length);

/* Writes an expression that matches only this text to the beginning of the output, and the number of its bytes to
 * `written`. What is written for a text with a backslash is no expression, since a backslash can't be escaped. An output
 * of 2 * text_length bytes is always large enough. Errors leave the output and `written` as for wax_filter. */
int32_t wax_escape(const char *text, size_t text_length, char *output, size_t output_length, size_t *written);

/* Draws why an expression isn't built: writes the expression to the beginning of the output, and under it a line for
 * each part that the error names; and the number of these bytes to `written`, which is 0 if the expression has no error.
 * Errors leave the output and `written` as for wax_filter. */
int32_t wax_picture(const char *expression, size_t expression_length, char *output, size_t output_length,
                    size_t *written);

/* A part of an expression, in bytes. */
typedef struct {
    size_t start, length;
} wax_span;

/* Looks for a path that both expressions match, among the paths as walks have them: one or more names, with a `/` between
 * each two. Returns 1 if there is one; a shortest one is then at the beginning of the output, and the number of its bytes
 * in `written`. Returns 0 if there is none, and 2 if it takes more than `most_states` states to decide, or more than 384
 * bytes for each of so many; 100000 is a usual limit.
 *
 * If an expression has an error, `which` is the index of the first one that has, 0 or 1, and `span` is as for
 * wax_glob_new; otherwise `which` is 2. After the error 10 it may be any. After the error 21, `written` is the number of
 * bytes that are needed. In all other cases but 1 it is 0. The output is unchanged in all cases but 1. An output of
 * 4 * most_states bytes is always large enough, though most paths have only a few. */
int32_t wax_overlap(const char *first, size_t first_length, const char *second, size_t second_length,
                    size_t most_states, char *output, size_t output_length, size_t *written, size_t *which,
                    wax_span *span);

/* Looks for a path that the first expression matches and the second one doesn't, as wax_overlap does. If there is none,
 * the second one matches all paths of walks that the first one matches. */
int32_t wax_difference(const char *first, size_t first_length, const char *second, size_t second_length,
                       size_t most_states, char *output, size_t output_length, size_t *written, size_t *which,
                       wax_span *span);

/* Looks for a path that exactly one of the expressions matches, as wax_overlap does. If there is none, both match the
 * same paths of walks. */
int32_t wax_compare(const char *first, size_t first_length, const char *second, size_t second_length,
                    size_t most_states, char *output, size_t output_length, size_t *written, size_t *which,
                    wax_span *span);

/* A handle of a glob: build it once to match many paths. */
typedef struct wax_glob wax_glob;

/* Builds a glob from an expression, and writes its handle to `out`. After an error the handle is null. After the
 * errors 1 to 8, `span` is the place of the error in the expression; otherwise it is 0 bytes at 0. */
int32_t wax_glob_new(const char *expression, size_t expression_length, wax_glob **out, wax_span *span);

/* Returns 1 if the glob matches the path, 0 if not. */
int32_t wax_glob_is_match(wax_glob *glob, const char *path, size_t path_length);

/* Returns 1 if something below the folder with this path can match, that is, if the glob matches the path of something
 * below it; 0 if not. A walk needs to open only such folders. The empty path is the folder where paths begin. */
int32_t wax_glob_goes_on(wax_glob *glob, const char *folder, size_t folder_length);

/* Writes the lines of the input that the glob matches, as wax_filter does. */
int32_t wax_glob_filter(const wax_glob *glob, const char *input, size_t input_length, char *output,
                        size_t output_length, size_t *written);

/* Returns 1 if the glob matches the path, 0 if not. If it matches, writes the texts of its captures to the beginning of
 * `texts`, one after another, how many bytes each has to the beginning of `lengths`, and the number of captures to
 * `count`. Each class, wildcard, alternation and repetition that isn't inside another token captures. An output of
 * path_length bytes, with as many lengths as wax_glob_capturing counts, is always large enough; the expression has at least
 * so many bytes. After the error 21, `count` is the number of captures; if the glob doesn't match, and after other errors, it is
 * 0. `texts` and `lengths` are unchanged in all these cases. */
int32_t wax_glob_captures(const wax_glob *glob, const char *path, size_t path_length, char *texts, size_t texts_length,
                          size_t *lengths, size_t lengths_length, size_t *count);

/* Returns 1 if the glob matches the path, 0 if not. If it matches, writes the place of each capture in the path, in bytes, to
 * the beginning of `spans`, and the number of captures to `count`. They are those of wax_glob_captures, in the same order; a
 * capture of no text has a place, too. As many elements as wax_glob_capturing counts are always enough. Errors leave `spans`
 * and `count` as for wax_glob_captures. */
int32_t wax_glob_spans(const wax_glob *glob, const char *path, size_t path_length, wax_span *spans, size_t spans_length,
                       size_t *count);

/* Writes the place in the expression of each token that captures, in bytes, to the beginning of `spans`, and the number of
 * these tokens to `count`. So many captures has each path that the glob matches. If there are more than `spans_length` (21),
 * `spans` is unchanged and `count` is how many there are; after the error 10 it is 0. It has no other error. Of the rest that
 * wax_glob_partition makes, the places are those in its own expression. */
int32_t wax_glob_capturing(const wax_glob *glob, wax_span *spans, size_t spans_length, size_t *count);

/* What is known of all paths that a glob matches. The depths are numbers of components, where `*`, `$` and a class are
 * one character; `greatest_depth` is SIZE_MAX if there is no greatest. `has_root` is 2 if each match begins with `/`, and
 * `is_exhaustive` is 2 if everything below each match matches too; 1 and 0 promise nothing. */
typedef struct {
    size_t least_depth, greatest_depth;
    int32_t has_root, is_exhaustive;
} wax_facts;

/* Writes what is known of the glob to `facts`. It has no errors. */
int32_t wax_glob_facts(const wax_glob *glob, wax_facts *facts);

/* Writes the expression of the glob to the beginning of the output, and the number of its bytes to `written`. For the rest
 * that wax_glob_partition makes, this is the rest of the expression. If the output is too small (21), it is unchanged and
 * `written` is how many bytes are needed. It has no other error. */
int32_t wax_glob_expression(const wax_glob *glob, char *output, size_t output_length, size_t *written);

/* If the expression is written as one text, returns 1 and writes this text, the only one that the glob matches, to the
 * beginning of the output, and the number of its bytes to `written`. Otherwise returns 0, and `written` is 0. Errors
 * leave the output and `written` as for wax_filter. */
int32_t wax_glob_text(const wax_glob *glob, char *output, size_t output_length, size_t *written);

/* A warning of an expression that builds. `kind` is 1 or 2 if the component at this place is `.` or `..`, which is matched as
 * a text and leads to no other folder, and 3 if the expression ends with the `/` at this place, so that it matches only paths
 * that end with one. */
typedef struct {
    wax_span span;
    int32_t kind;
} wax_warning;

/* Writes the warnings of the glob to the beginning of `warnings`, and their number to `count`. If there are more than
 * `warnings_length` (21), `count` is how many there are; after the error 10 it is 0. It has no other error. `warnings` is
 * unchanged after any error. */
int32_t wax_glob_warnings(const wax_glob *glob, wax_warning *warnings, size_t warnings_length, size_t *count);

/* Returns 1 if a component of the glob is `.` or `..`, that is, if the glob has a warning of the kind 1 or 2, and 0 if not. It
 * has only the error 10. */
int32_t wax_glob_has_semantic_literals(const wax_glob *glob);

/* Writes the prefix of the glob, with which each match begins, to the beginning of `prefix`, the number of its bytes to
 * `written`, and a new handle of the rest of the glob to `rest`, or null if there is none. The first handle stays as it
 * is. After an error the new handle is null, and `prefix` and `written` are left as for wax_filter. */
int32_t wax_glob_partition(const wax_glob *glob, char *prefix, size_t prefix_length, size_t *written, wax_glob **rest);

/* Looks for a path that both globs match, as wax_overlap does for two expressions: it returns 1, 0 or 2, and writes and counts
 * what that does. It has only the errors 10 and 21. The two handles have to be different ones. */
int32_t wax_glob_overlap(const wax_glob *first, const wax_glob *second, size_t most_states, char *output,
                         size_t output_length, size_t *written);

/* Looks for a path that the first glob matches and the second one doesn't, as wax_glob_overlap does. */
int32_t wax_glob_difference(const wax_glob *first, const wax_glob *second, size_t most_states, char *output,
                            size_t output_length, size_t *written);

/* Looks for a path that exactly one of the globs matches, as wax_glob_overlap does. */
int32_t wax_glob_compare(const wax_glob *first, const wax_glob *second, size_t most_states, char *output,
                         size_t output_length, size_t *written);

/* Frees a handle. Does nothing if it is null. */
void wax_glob_free(wax_glob *glob);

/* A handle of a set of globs. */
typedef struct wax_set wax_set;

/* Builds a set from expressions, and writes its handle to `out`. The expressions are one after another in `patterns`, and
 * `lengths` has the number of bytes of each. After an error the handle is null. If an expression has an error, `which` is
 * the index of the first one that has, and `span` is as for wax_glob_new; otherwise `which` is `count`, even if the set is
 * too large (9). After the error 10, `which` may be either. */
int32_t wax_set_new(const char *patterns, size_t patterns_length, const size_t *lengths, size_t count, wax_set **out,
                    size_t *which, wax_span *span);

/* Returns 1 if one of the expressions matches the path, 0 if not. */
int32_t wax_set_is_match(wax_set *set, const char *path, size_t path_length);

/* Writes the indexes of all expressions that match the path to the beginning of `which`, ascending, and their number to
 * `count`. After the error 21, `count` is how many there are; after others it is 0. `which` is unchanged after any
 * error. */
int32_t wax_set_matches(wax_set *set, const char *path, size_t path_length, size_t *which, size_t which_length,
                        size_t *count);

/* Returns 1 if one of the expressions matches the path of something below the folder with this path, 0 if not. */
int32_t wax_set_goes_on(wax_set *set, const char *folder, size_t folder_length);

/* Writes what is known of all paths that the set matches to `facts`, as wax_glob_facts does for a glob. It has no errors. Of a
 * set without expressions, all are 0. */
int32_t wax_set_facts(const wax_set *set, wax_facts *facts);

/* If all expressions are written as one and the same text, returns 1 and writes this text, as wax_glob_text does for a glob.
 * Otherwise returns 0. A set without expressions, which matches nothing, counts as written as the empty text. */
int32_t wax_set_text(const wax_set *set, char *output, size_t output_length, size_t *written);

/* Look for a path that both sets match, that the first set matches and the second one doesn't, or that exactly one of them
 * matches, as wax_glob_overlap does for two globs. */
int32_t wax_set_overlap(const wax_set *first, const wax_set *second, size_t most_states, char *output,
                        size_t output_length, size_t *written);
int32_t wax_set_difference(const wax_set *first, const wax_set *second, size_t most_states, char *output,
                           size_t output_length, size_t *written);
int32_t wax_set_compare(const wax_set *first, const wax_set *second, size_t most_states, char *output,
                        size_t output_length, size_t *written);

/* Frees a handle. Does nothing if it is null. */
void wax_set_free(wax_set *set);

/* A handle of an ignore list. Each line is a glob: paths that it matches are ignored or, after a `!`, aren't. The last
 * line that matches a path decides. Lines that are empty or begin with `#` are skipped. */
typedef struct wax_ignore wax_ignore;

/* Builds an ignore list from a text, and writes its handle to `out`. After an error the handle is null. After the
 * errors 1 to 9, `line` is the number, from 1, of the first line whose glob has an error; otherwise it is 0. */
int32_t wax_ignore_new(const char *text, size_t text_length, wax_ignore **out, size_t *line);

/* Returns 1 if the list ignores the path, 0 if not. */
int32_t wax_ignore_is_ignored(wax_ignore *list, const char *path, size_t path_length);

/* Writes the lines of the input that the list doesn't ignore, as wax_filter does. */
int32_t wax_ignore_filter(wax_ignore *list, const char *input, size_t input_length, char *output,
                          size_t output_length, size_t *written);

/* Returns 1 if the list ignores everything below the folder with this path, so that a walk needn't open it; 0 if
 * something below it might not be ignored. If a `/` follows the last name of the path, 1 promises nothing. */
int32_t wax_ignore_excludes_below(const wax_ignore *list, const char *folder, size_t folder_length);

/* If a line of the list matches the path, returns 1, and writes the index of the last such line, which decides whether the
 * path is ignored, to `line`: from 0, without the lines that are skipped. Returns 0 if no line matches; `line` is 0 then, and
 * after an error. Each call reads all lines anew, so it takes longer than wax_ignore_is_ignored. */
int32_t wax_ignore_deciding_line(const wax_ignore *list, const char *path, size_t path_length, size_t *line);

/* Writes the indexes of the lines that decide nothing to the beginning of `lines`, ascending, counted as for
 * wax_ignore_deciding_line, and their number to `count`. Without these lines, the list ignores the same paths, among the
 * paths as walks have them: one or more names, with a `/` between each two. Returns 0 if each other line decides some such
 * path, and 2 if it takes more than `most_states` states to find that out of some line, or more than 384 bytes for each of so
 * many, or too large a program; 100000 is a usual limit. It has only the errors 10 and 21. After the error 21, `count` is how
 * many such lines there are; after the error 10 it is 0. `lines` is unchanged after any error. As many elements as the list
 * has lines are always enough. */
int32_t wax_ignore_idle_lines(const wax_ignore *list, size_t most_states, size_t *lines, size_t lines_length,
                              size_t *count);

/* Writes the indexes of the lines of which wax_ignore_idle_lines, within the same `most_states`, doesn't find out whether they
 * decide: for these it returns 2. Returns 0 if there is none, and 2 if there is one. The order, `count` and the errors are those
 * of wax_ignore_idle_lines. */
int32_t wax_ignore_undecided_lines(const wax_ignore *list, size_t most_states, size_t *lines, size_t lines_length,
                                   size_t *count);

/* Writes the indexes of lines that are enough: a list of only these ignores the same paths of walks, and each of them decides
 * one in that list. Without some lines others may decide nothing, too, so it may remove more than wax_ignore_idle_lines finds.
 * Returns 0 if each is known to decide some path, and 2 if it takes more than `most_states` states, or what else that allows, to
 * find that out of some line, which stays then. The order, `count` and the errors are those of wax_ignore_idle_lines. */
int32_t wax_ignore_tidy(const wax_ignore *list, size_t most_states, size_t *lines, size_t lines_length, size_t *count);

/* Look for a path that both lists ignore, that the first list ignores and the second one doesn't, or that exactly one of them
 * ignores, as wax_glob_overlap does for what two globs match. If wax_ignore_compare finds none, both ignore the same
 * paths of walks. */
int32_t wax_ignore_overlap(const wax_ignore *first, const wax_ignore *second, size_t most_states, char *output,
                           size_t output_length, size_t *written);
int32_t wax_ignore_difference(const wax_ignore *first, const wax_ignore *second, size_t most_states, char *output,
                              size_t output_length, size_t *written);
int32_t wax_ignore_compare(const wax_ignore *first, const wax_ignore *second, size_t most_states, char *output,
                           size_t output_length, size_t *written);

/* Frees a handle. Does nothing if it is null. */
void wax_ignore_free(wax_ignore *list);

#ifdef __cplusplus
}
#endif

#endif
