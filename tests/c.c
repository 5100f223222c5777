// Calls the C library, and compares each result with docs/LANGUAGE.md, docs/ERRORS.md and docs/IGNORE.md. With the argument
// `fail`, each allocation fails in turn instead: each call then has to return its result or the error 10, and to free what it
// allocated.
#include "refusing.h"
#include "wax.h"
#include <stdio.h>
#include <stdlib.h>
#include <string.h>

static long failures;

#define TEXT(text) (text), strlen(text)
#define CHECK(holds) ((holds) ? (void)0 : (void)(failures++, printf("line %d: %s\n", __LINE__, #holds)))

static const char lines[] = "src/a.rs\nREADME\nsrc/x/y.toml\n\xff\nsrc/z.c\nsrc/b.rs";
static const char wanted[] = "src/a.rs\nsrc/x/y.toml\nsrc/b.rs\n";
static const char expression[] = "src/**/*.{rs,toml}";

static void expressions(void) {
  CHECK(wax_is_match(TEXT("**/*.c"), TEXT("x/y.c")) == 1);
  CHECK(wax_is_match(TEXT("**/*.c"), TEXT("x/y.h")) == 0);
  CHECK(wax_is_match(TEXT("*.c"), TEXT("x/y.c")) == 0);
  CHECK(wax_is_match("", 0, "", 0) == 1);
  CHECK(wax_is_match("a*", 1, "ab", 1) == 1); // lengths count, and what follows is not read
  CHECK(wax_is_match("\xff", 1, "a", 1) == -20);
  CHECK(wax_is_match("a", 1, "\xff", 1) == -20);
}

// expressions with the numbers of their errors, as docs/LANGUAGE.md has them
static void errors(void) {
  static const struct {
    const char *expression;
    int32_t number;
  } rows[] = {{"a/{b,c", 1},  {"***", 1},      {"a//b", 2},           {"{a/,b}/c", 2},   {"<a:10,9>", 3}, {"{a,**}", 4},
              {"{a$,b}*", 5}, {"</a:0,>", 6}, {"{okay,/error}", 6}, {"<*:1,>", 7},     {"<a:65536>", 8}, {"<a*:1000000>", 9}};
  for (size_t at = 0; at < sizeof rows / sizeof *rows; at++) {
    wax_glob *glob = (wax_glob *)rows;
    wax_span span = {7, 7};
    size_t length = strlen(rows[at].expression);
    int32_t status = wax_glob_new(rows[at].expression, length, &glob, &span);
    if (status != -rows[at].number) {
      failures++;
      printf("%s: %d, and not %d\n", rows[at].expression, status, -rows[at].number);
    }
    CHECK(glob == NULL);
    CHECK(span.start + span.length <= length);
    CHECK(status != -9 || (span.start == 0 && span.length == 0));
    CHECK(wax_is_match(rows[at].expression, length, "", 0) == status);
    wax_glob_free(glob);
  }
  wax_glob *glob;
  wax_span span;
  CHECK(wax_glob_new(TEXT("\xc3\xa9//**/a"), &glob, &span) == -2 && span.start == 2 && span.length == 5);
}

static void filters(void) {
  char output[100];
  size_t written = 77;
  memset(output, '#', sizeof output);
  CHECK(wax_filter(TEXT(expression), TEXT(lines), output, sizeof output, &written) == 0);
  CHECK(written == strlen(wanted) && memcmp(output, wanted, written) == 0 && output[written] == '#');
  memset(output, '#', sizeof output);
  CHECK(wax_filter(TEXT(expression), TEXT(lines), output, strlen(wanted) - 1, &written) == -21);
  CHECK(written == strlen(wanted) && output[0] == '#');
  CHECK(wax_filter(TEXT(expression), TEXT(lines), output, strlen(wanted), &written) == 0);
  CHECK(wax_filter(TEXT("a/{b,c"), TEXT(lines), output, sizeof output, &written) == -1 && written == 0);
  CHECK(wax_filter("\xff", 1, TEXT(lines), output, sizeof output, &written) == -20 && written == 0);
  CHECK(wax_filter(TEXT("*"), "a", 1, output, 2, &written) == 0 && written == 2 && memcmp(output, "a\n", 2) == 0);
  CHECK(wax_filter(TEXT("*"), "", 0, output, 1, &written) == 0 && written == 0);
  CHECK(wax_count_not_text(TEXT(lines)) == 1 && wax_count_not_text("", 0) == 0 && wax_count_not_text("\n\n", 2) == 0);
  CHECK(wax_count_not_text("\xff", 1) == 1 && wax_count_not_text("a\n\xc3\n\xa9\n\n\xff\xff\nb", 13) == 3);
}

static void texts(void) {
  char output[100];
  size_t written = 77;
  memset(output, '#', sizeof output);
  CHECK(wax_escape(TEXT("a*[b]"), output, 7, &written) == -21 && written == 8 && output[0] == '#');
  CHECK(wax_escape("\xff", 1, output, 7, &written) == -20 && written == 0 && output[0] == '#');
  CHECK(wax_escape(TEXT("a*[b]"), output, 8, &written) == 0 && written == 8 && memcmp(output, "a\\*\\[b\\]#", 9) == 0);
  CHECK(wax_is_match(output, written, TEXT("a*[b]")) == 1);
  CHECK(wax_escape(TEXT("a/b"), output, 3, &written) == 0 && written == 3 && memcmp(output, "a/b", 3) == 0);
  memset(output, '#', sizeof output);
  CHECK(wax_picture(TEXT("a*"), output, 0, &written) == 0 && written == 0);
  CHECK(wax_picture("\xff", 1, output, sizeof output, &written) == -20 && written == 0);
  // (as docs/GUIDE.md has it)
  static const char picture[] = "{a/,b}/c\n^^^^^^ in this alternation\n      ^ here\n  ^ here\n";
  CHECK(wax_picture(TEXT("{a/,b}/c"), output, 5, &written) == -21 && written == strlen(picture) && output[0] == '#');
  CHECK(wax_picture(TEXT("{a/,b}/c"), output, sizeof output, &written) == 0 && written == strlen(picture));
  CHECK(memcmp(output, picture, written) == 0 && output[written] == '#');
}

typedef int32_t comparison(const char *, size_t, const char *, size_t, size_t, char *, size_t, size_t *, size_t *, wax_span *);

// (the rows are also in crates/wax_vectors/data/worked_compare.tsv, or follow from them)
static void comparisons(void) {
  static const struct {
    comparison *call;
    const char *first, *second;
    size_t most_states;
    int32_t status;
    const char *path;
  } rows[] = {
      {wax_overlap, "**", "**", 100000, 1, "a"},
      {wax_overlap, "src/**/*.{go,rs}", "**/test_*", 100000, 1, "src/test_.go"},
      {wax_overlap, "a/**", "a?*", 100000, 0, ""},
      {wax_overlap, "/usr/**", "**", 100000, 0, ""}, // no path of a walk begins with `/`
      {wax_overlap, "\xc3\xa9", "*", 100000, 1, "\xc3\xa9"},
      {wax_overlap, "a", "a", 0, 2, ""},
      {wax_overlap, "aa", "?a", 2, 2, ""},
      {wax_difference, "**/a", "a/**", 100000, 1, "b/a"},
      {wax_difference, "a/**", "**/a", 100000, 1, "a/b"},
      {wax_difference, "src/*.go", "src/**/*.{go,rs}", 100000, 0, ""},
      {wax_difference, "**", "{a,b}/**", 100000, 1, "c"},
      {wax_difference, "aa", "?b", 2, 2, ""},
      {wax_compare, "{src,tests}/**/*.rs", "{src,tests,benches}/**/*.rs", 100000, 1, "benches/.rs"},
      {wax_compare, "{src,tests,benches}/**/*.rs", "{src,tests}/**/*.rs", 100000, 1, "benches/.rs"},
      {wax_compare, "<**/a:1,>", "**/a", 100000, 0, ""},
      {wax_compare, "aa", "?b", 2, 2, ""},
  };
  for (size_t at = 0; at < sizeof rows / sizeof *rows; at++) {
    char output[40];
    size_t written = 77, which = 7, length = strlen(rows[at].path);
    wax_span span = {7, 7};
    for (size_t room = length ? length - 1 : 0; room <= length + 1; room++) {
      memset(output, '#', sizeof output);
      int32_t expected = room < length ? -21 : rows[at].status;
      int32_t status = rows[at].call(TEXT(rows[at].first), TEXT(rows[at].second), rows[at].most_states, output, room,
                                     &written, &which, &span);
      if (status != expected || written != length) {
        failures++;
        printf("%s, %s: %d with %zu bytes, and not %d with %zu\n", rows[at].first, rows[at].second, status, written,
               expected, length);
        continue;
      }
      CHECK(status == 1 ? memcmp(output, rows[at].path, length) == 0 && output[length] == '#' : output[0] == '#');
      CHECK(which == 2 && span.start == 0 && span.length == 0);
    }
  }
}

// the first expression that has an error is named, with its number and the place
static void comparison_errors(void) {
  static comparison *const calls[] = {wax_overlap, wax_difference, wax_compare};
  static const struct {
    const char *first, *second;
    int32_t number;
    size_t which;
    wax_span span;
  } rows[] = {
      {"a//b", "{a/,b}/c", 2, 0, {1, 2}}, {"a", "a//b", 2, 1, {1, 2}},      {"\xff", "a//b", 20, 0, {0, 0}},
      {"a", "\xff", 20, 1, {0, 0}},       {"<a*:1000000>", "a", 9, 0, {0, 0}}, {"a/{b,c", "a", 1, 0, {2, 4}},
  };
  for (size_t at = 0; at < 3 * sizeof rows / sizeof *rows; at++) {
    size_t row = at / 3, written = 77, which = 7;
    wax_span span = {7, 7};
    char output[1] = "#";
    int32_t status = calls[at % 3](TEXT(rows[row].first), TEXT(rows[row].second), 100, output, 1, &written, &which, &span);
    CHECK(status == -rows[row].number && which == rows[row].which && written == 0 && output[0] == '#');
    if (rows[row].number != 1) CHECK(span.start == rows[row].span.start && span.length == rows[row].span.length);
    wax_glob *glob;
    wax_span place;
    const char *named = which ? rows[row].second : rows[row].first;
    CHECK(wax_glob_new(TEXT(named), &glob, &place) == status);
    CHECK(place.start == span.start && place.length == span.length);
  }
}

static void globs(void) {
  char output[100];
  size_t written;
  wax_span span = {7, 7};
  wax_glob *glob = NULL, *other = NULL;
  CHECK(wax_glob_new(TEXT(expression), &glob, &span) == 0 && glob != NULL && span.start == 0 && span.length == 0);
  CHECK(wax_glob_new(TEXT("*.c"), &other, &span) == 0 && other != NULL && other != glob);
  for (int turn = 0; turn < 3; turn++) {
    CHECK(wax_glob_is_match(glob, TEXT("src/a/b.rs")) == 1);
    CHECK(wax_glob_is_match(glob, TEXT("src/a/b.c")) == 0);
    CHECK(wax_glob_is_match(other, TEXT("b.c")) == 1);
    CHECK(wax_glob_is_match(glob, "\xff", 1) == -20);
    CHECK(wax_glob_goes_on(glob, "", 0) == 1);
    CHECK(wax_glob_goes_on(glob, TEXT("src/a.rs")) == 1);
    CHECK(wax_glob_goes_on(glob, TEXT("src/")) == 1);
    CHECK(wax_glob_goes_on(glob, TEXT("doc")) == 0);
    CHECK(wax_glob_goes_on(other, "", 0) == 1);
    CHECK(wax_glob_goes_on(other, TEXT("b.c")) == 0);
    CHECK(wax_glob_goes_on(glob, "\xff", 1) == -20);
    CHECK(wax_glob_filter(glob, TEXT(lines), output, sizeof output, &written) == 0);
    CHECK(written == strlen(wanted) && memcmp(output, wanted, written) == 0);
    CHECK(wax_glob_filter(glob, TEXT(lines), output, 5, &written) == -21 && written == strlen(wanted));
  }
  wax_glob_free(other);
  wax_glob_free(glob);
  wax_glob_free(NULL);
}

static void captures(void) {
  char texts[20];
  size_t lengths[4], count = 7;
  wax_span span;
  wax_glob *glob = NULL;
  CHECK(wax_glob_new(TEXT("src/**/*.{rs,toml}"), &glob, &span) == 0);
  memset(texts, '#', sizeof texts);
  for (size_t at = 0; at < 4; at++) lengths[at] = 77;
  CHECK(wax_glob_captures(glob, TEXT("src/a/b.c"), texts, 20, lengths, 4, &count) == 0 && count == 0);
  CHECK(wax_glob_captures(glob, "\xff", 1, texts, 20, lengths, 4, &count) == -20 && count == 0);
  CHECK(wax_glob_captures(glob, TEXT("src/a/\xc3\xa9.rs"), texts, 5, lengths, 4, &count) == -21 && count == 3);
  CHECK(wax_glob_captures(glob, TEXT("src/a/\xc3\xa9.rs"), texts, 20, lengths, 2, &count) == -21 && count == 3);
  CHECK(texts[0] == '#' && lengths[0] == 77);
  CHECK(wax_glob_captures(glob, TEXT("src/a/\xc3\xa9.rs"), texts, 6, lengths, 3, &count) == 1 && count == 3);
  CHECK(memcmp(texts, "a/\xc3\xa9rs#", 7) == 0);
  CHECK(lengths[0] == 2 && lengths[1] == 2 && lengths[2] == 2 && lengths[3] == 77);
  CHECK(wax_glob_captures(glob, TEXT("src/.toml"), texts, 20, lengths, 4, &count) == 1 && count == 3);
  CHECK(memcmp(texts, "toml", 4) == 0 && lengths[0] == 0 && lengths[1] == 0 && lengths[2] == 4);
  wax_glob_free(glob);
  CHECK(wax_glob_new(TEXT("a"), &glob, &span) == 0);
  CHECK(wax_glob_captures(glob, "a", 1, texts, 0, lengths, 0, &count) == 1 && count == 0);
  wax_glob_free(glob);
}

// the place of each capture is where the text of wax_glob_captures lies
static void spans(void) {
  static const struct {
    const char *expression, *path;
    int32_t status;
    size_t count;
    wax_span spans[4];
  } rows[] = {
      {"src/**/*.{rs,toml}", "src/a/\xc3\xa9.rs", 1, 3, {{4, 2}, {6, 2}, {9, 2}}},
      {"src/**/*.{rs,toml}", "src/.toml", 1, 3, {{4, 0}, {4, 0}, {5, 4}}},
      {"src/**/*.{rs,toml}", "src/a/b.c", 0, 0, {{0, 0}}},
      {"a", "a", 1, 0, {{0, 0}}},
      {"", "", 1, 0, {{0, 0}}},
      {"a/**", "a", 1, 1, {{1, 0}}},
      {"a/**", "a/\xf0\x9f\x90\xa2/b", 1, 1, {{2, 6}}},
      {"**", "/", 1, 1, {{0, 0}}},
      {"/**", "/a", 1, 1, {{0, 2}}},
      {"<a*/:1,><b:2>?[c]", "ax/a/bb\xc3\xa9" "c", 1, 4, {{0, 5}, {5, 2}, {7, 2}, {9, 1}}},
      {"$a*", "aaa", 1, 2, {{0, 0}, {1, 2}}},
  };
  for (size_t at = 0; at < sizeof rows / sizeof *rows; at++) {
    wax_glob *glob = NULL;
    wax_span place, found[4];
    const char *path = rows[at].path;
    size_t number = rows[at].count, count = 77, lengths[4], all;
    char texts[40];
    CHECK(wax_glob_new(TEXT(rows[at].expression), &glob, &place) == 0);
    for (size_t room = number ? number - 1 : 0; room <= 4; room++) {
      for (size_t index = 0; index < 4; index++) found[index] = (wax_span){77, 78};
      int32_t status = wax_glob_spans(glob, TEXT(path), found, room, &count);
      CHECK(status == (room < number ? -21 : rows[at].status) && count == number);
      for (size_t index = 0; index < 4; index++) {
        wax_span expected = status == 1 && index < number ? rows[at].spans[index] : (wax_span){77, 78};
        CHECK(found[index].start == expected.start && found[index].length == expected.length);
      }
    }
    if (rows[at].status == 1) {
      CHECK(wax_glob_captures(glob, TEXT(path), texts, sizeof texts, lengths, 4, &all) == 1 && all == number);
      for (size_t index = 0, before = 0; index < number; before += lengths[index++]) {
        CHECK(lengths[index] == found[index].length);
        CHECK(!memcmp(texts + before, path + found[index].start, lengths[index]));
      }
    }
    CHECK(wax_glob_spans(glob, "\xff", 1, found, 4, &count) == -20 && count == 0);
    wax_glob_free(glob);
  }
}

static void capturing(void) {
  static const struct {
    const char *expression;
    size_t count;
    wax_span spans[4];
  } rows[] = {
      {"src/**/*.{rs,toml}", 3, {{3, 4}, {7, 1}, {9, 9}}},
      {"a/b", 0, {{0, 0}}},
      {"\xc3\xa9[ab]<c:2>?$", 4, {{2, 4}, {6, 5}, {11, 1}, {12, 1}}},
  };
  for (size_t at = 0; at < sizeof rows / sizeof *rows; at++) {
    wax_glob *glob = NULL;
    wax_span place;
    size_t number = rows[at].count, count = 77;
    CHECK(wax_glob_new(TEXT(rows[at].expression), &glob, &place) == 0);
    for (size_t room = number ? number - 1 : 0; room <= 4; room++) {
      wax_span found[4] = {{77, 78}, {77, 78}, {77, 78}, {77, 78}};
      int32_t status = wax_glob_capturing(glob, found, room, &count);
      CHECK(status == (room < number ? -21 : 0) && count == number);
      for (size_t index = 0; index < 4; index++) {
        wax_span expected = status == 0 && index < number ? rows[at].spans[index] : (wax_span){77, 78};
        CHECK(found[index].start == expected.start && found[index].length == expected.length);
      }
    }
    wax_glob_free(glob);
  }
}

// (the rows are also in crates/wax_vectors/data/tests_calls.tsv, or follow from docs/QUERIES.md)
static void warnings(void) {
  static const struct {
    const char *expression;
    size_t count;
    wax_warning warnings[3];
  } rows[] = {
      {"a/b", 0, {{{0, 0}, 0}}},
      {"../a/", 2, {{{0, 2}, 2}, {{4, 1}, 3}}},
      {"a/./{b/..,c}/*/", 3, {{{2, 1}, 1}, {{7, 2}, 2}, {{14, 1}, 3}}},
      {".a/...", 0, {{{0, 0}, 0}}},
  };
  for (size_t at = 0; at < sizeof rows / sizeof *rows; at++) {
    wax_glob *glob = NULL;
    wax_span place;
    size_t number = rows[at].count, count = 77;
    CHECK(wax_glob_new(TEXT(rows[at].expression), &glob, &place) == 0);
    for (size_t room = number ? number - 1 : 0; room <= 3; room++) {
      wax_warning found[3] = {{{77, 78}, 79}, {{77, 78}, 79}, {{77, 78}, 79}};
      int32_t status = wax_glob_warnings(glob, found, room, &count);
      CHECK(status == (room < number ? -21 : 0) && count == number);
      for (size_t index = 0; index < 3; index++) {
        wax_warning expected = status == 0 && index < number ? rows[at].warnings[index] : (wax_warning){{77, 78}, 79};
        CHECK(found[index].span.start == expected.span.start && found[index].span.length == expected.span.length);
        CHECK(found[index].kind == expected.kind);
      }
    }
    CHECK(wax_glob_has_semantic_literals(glob) == (number > 0));
    wax_glob_free(glob);
  }
  wax_glob *glob = NULL;
  wax_span place;
  CHECK(wax_glob_new(TEXT("a/"), &glob, &place) == 0);
  CHECK(wax_glob_has_semantic_literals(glob) == 0); // though it has a warning
  wax_glob_free(glob);
}

static void parts(void) {
  char prefix[20], text[20];
  size_t written = 77;
  wax_span span;
  wax_glob *glob = NULL, *rest = (wax_glob *)prefix;
  wax_facts facts;
  CHECK(wax_glob_new(TEXT("src/*/mod.rs"), &glob, &span) == 0);
  CHECK(wax_glob_facts(glob, &facts) == 0 && facts.least_depth == 3 && facts.greatest_depth == 3);
  CHECK(facts.has_root == 0 && facts.is_exhaustive == 0);
  memset(prefix, '#', sizeof prefix);
  CHECK(wax_glob_partition(glob, prefix, 3, &written, &rest) == -21 && written == 4 && rest == NULL && prefix[0] == '#');
  CHECK(wax_glob_partition(glob, prefix, 4, &written, &rest) == 0 && written == 4 && rest != NULL);
  CHECK(memcmp(prefix, "src/#", 5) == 0);
  memset(text, '#', sizeof text);
  CHECK(wax_glob_expression(rest, text, 7, &written) == -21 && written == 8 && text[0] == '#');
  CHECK(wax_glob_expression(rest, text, 8, &written) == 0 && written == 8 && memcmp(text, "*/mod.rs#", 9) == 0);
  CHECK(wax_glob_expression(glob, text, sizeof text, &written) == 0 && written == 12);
  CHECK(memcmp(text, "src/*/mod.rs#", 13) == 0);
  CHECK(wax_glob_text(glob, prefix, sizeof prefix, &written) == 0 && written == 0 && prefix[0] == 's');
  CHECK(wax_glob_is_match(rest, TEXT("a/mod.rs")) == 1 && wax_glob_is_match(rest, TEXT("src/a/mod.rs")) == 0);
  CHECK(wax_glob_is_match(glob, TEXT("src/a/mod.rs")) == 1);
  wax_glob_free(rest);
  wax_glob_free(glob);
  CHECK(wax_glob_new(TEXT("/a/**"), &glob, &span) == 0);
  CHECK(wax_glob_facts(glob, &facts) == 0 && facts.least_depth == 1 && facts.greatest_depth == SIZE_MAX);
  CHECK(facts.has_root == 2 && facts.is_exhaustive == 2);
  wax_glob_free(glob);
  CHECK(wax_glob_new(TEXT("a/[b]"), &glob, &span) == 0);
  CHECK(wax_glob_text(glob, prefix, 2, &written) == -21 && written == 3 && prefix[0] == 's');
  CHECK(wax_glob_text(glob, prefix, 3, &written) == 1 && written == 3 && memcmp(prefix, "a/b/#", 5) == 0);
  wax_glob_free(glob);
  CHECK(wax_glob_new(TEXT("a/b"), &glob, &span) == 0);
  CHECK(wax_glob_partition(glob, prefix, sizeof prefix, &written, &rest) == 0 && written == 3 && rest == NULL);
  wax_glob_free(glob);
}

static void sets(void) {
  static const size_t lengths[] = {7, 7, 8};
  size_t which = 7, found[3] = {77, 77, 77}, count;
  wax_span span = {7, 7};
  wax_set *set = NULL;
  CHECK(wax_set_new(TEXT("**/*.rsdocs/****/test*"), lengths, 3, &set, &which, &span) == 0 && set != NULL && which == 3);
  CHECK(wax_set_is_match(set, TEXT("src/test.rs")) == 1);
  CHECK(wax_set_is_match(set, TEXT("src/a.c")) == 0);
  CHECK(wax_set_is_match(set, "\xff", 1) == -20);
  CHECK(wax_set_matches(set, TEXT("src/test.rs"), found, 1, &count) == -21 && count == 2 && found[0] == 77);
  CHECK(wax_set_matches(set, TEXT("src/test.rs"), found, 3, &count) == 0 && count == 2);
  CHECK(found[0] == 0 && found[1] == 2 && found[2] == 77);
  CHECK(wax_set_matches(set, TEXT("a"), found, 0, &count) == 0 && count == 0);
  CHECK(wax_set_matches(set, "\xff", 1, found, 3, &count) == -20 && count == 0);
  CHECK(wax_set_goes_on(set, TEXT("docs")) == 1);
  CHECK(wax_set_goes_on(set, "\xff", 1) == -20);
  wax_set_free(set);
  wax_set_free(NULL);
  CHECK(wax_set_new(TEXT("a/bc//d"), (size_t[]){3, 4}, 2, &set, &which, &span) == -2 && set == NULL && which == 1);
  CHECK(span.start == 1 && span.length == 2);
  CHECK(wax_set_new("a\xff", 2, (size_t[]){1, 1}, 2, &set, &which, &span) == -20 && set == NULL && which == 1);
  CHECK(wax_set_new("src/*", 5, (size_t[]){3, 99}, 2, &set, &which, &span) == 0 && which == 2);
  CHECK(wax_set_is_match(set, TEXT("/a")) == 1 && wax_set_is_match(set, TEXT("src")) == 1);
  CHECK(wax_set_goes_on(set, TEXT("src")) == 0);
  wax_set_free(set);
  CHECK(wax_set_new("", 0, lengths, 0, &set, &which, &span) == 0 && which == 0);
  CHECK(wax_set_is_match(set, "", 0) == 0);
  wax_set_free(set);
}

static void facts_of_sets(void) {
  static const struct {
    const char *patterns;
    size_t lengths[2], count;
    wax_facts facts;
    const char *text; // or none
  } rows[] = {
      {"src/*/mod.rsa/b", {12, 3}, 2, {2, 3, 0, 0}, NULL},
      {"/a/**/b/**", {5, 5}, 2, {1, SIZE_MAX, 2, 2}, NULL},
      {"/ab/**", {2, 4}, 2, {1, SIZE_MAX, 1, 1}, NULL},
      {"a/[b]a/b", {5, 3}, 2, {2, 2, 0, 0}, "a/b"},
      {"", {0, 0}, 0, {0, 0, 0, 0}, ""},
  };
  for (size_t at = 0; at < sizeof rows / sizeof *rows; at++) {
    wax_set *set = NULL;
    wax_facts facts = {77, 77, 77, 77}, wanted = rows[at].facts;
    wax_span span;
    size_t which, written = 77, length = rows[at].text ? strlen(rows[at].text) : 0;
    char output[5] = "#####";
    CHECK(wax_set_new(TEXT(rows[at].patterns), rows[at].lengths, rows[at].count, &set, &which, &span) == 0);
    CHECK(wax_set_facts(set, &facts) == 0);
    CHECK(facts.least_depth == wanted.least_depth && facts.greatest_depth == wanted.greatest_depth);
    CHECK(facts.has_root == wanted.has_root && facts.is_exhaustive == wanted.is_exhaustive);
    if (length) CHECK(wax_set_text(set, output, length - 1, &written) == -21 && written == length && output[0] == '#');
    CHECK(wax_set_text(set, output, length, &written) == (rows[at].text != NULL) && written == length);
    CHECK(!memcmp(output, rows[at].text ? rows[at].text : "", length) && output[length] == '#');
    wax_set_free(set);
  }
}

/* Compares what lies at two handles: returns 0 if a call returns this number, and writes this path to an output that is
 * exactly large enough, and says how many bytes are needed if it is too small. */
typedef int32_t found_by(const void *one, const void *other, size_t most_states, char *output, size_t room, size_t *written);
static void find(found_by *call, const void *one, const void *other, size_t most_states, int32_t wanted, const char *path) {
  char output[33];
  size_t length = strlen(path), written = 77;
  memset(output, '#', sizeof output);
  CHECK(length < 32 && call(one, other, most_states, output, length, &written) == wanted && written == length);
  CHECK(!memcmp(output, path, length) && output[length] == '#');
  if (length) {
    memset(output, '#', sizeof output);
    CHECK(call(one, other, most_states, output, length - 1, &written) == -21 && written == length && output[0] == '#');
  }
}

#define FINDERS(kind)                                                                                             \
  static int32_t kind##_overlap(const void *one, const void *other, size_t most, char *output, size_t room, size_t *written) {    \
    return wax_##kind##_overlap(one, other, most, output, room, written);                                                         \
  }                                                                                                                                \
  static int32_t kind##_difference(const void *one, const void *other, size_t most, char *output, size_t room, size_t *written) { \
    return wax_##kind##_difference(one, other, most, output, room, written);                                                      \
  }                                                                                                                                \
  static int32_t kind##_compare(const void *one, const void *other, size_t most, char *output, size_t room, size_t *written) {    \
    return wax_##kind##_compare(one, other, most, output, room, written);                                                         \
  }
FINDERS(glob)
FINDERS(set)
FINDERS(ignore)

static void compared_globs(void) {
  wax_span span;
  wax_glob *one, *other, *third;
  CHECK(wax_glob_new(TEXT("src/**/*.{go,rs}"), &one, &span) == 0);
  CHECK(wax_glob_new(TEXT("**/a*"), &other, &span) == 0);
  CHECK(wax_glob_new(TEXT("*.go"), &third, &span) == 0);
  find(glob_overlap, one, other, 100000, 1, "src/a.go");
  find(glob_difference, one, other, 100000, 1, "src/.go");
  find(glob_difference, other, one, 100000, 1, "a");
  find(glob_compare, one, other, 100000, 1, "a");
  find(glob_overlap, third, one, 100000, 0, "");
  find(glob_overlap, one, other, 1, 2, "");
  find(glob_difference, one, other, 1, 2, "");
  find(glob_compare, one, other, 1, 2, "");
  CHECK(wax_glob_is_match(one, TEXT("src/a.go")) == 1);
  wax_glob_free(third);
  CHECK(wax_glob_new(TEXT("src/**/{*.rs,*.go}"), &third, &span) == 0);
  find(glob_difference, third, one, 100000, 0, "");
  find(glob_compare, third, one, 100000, 0, "");
  wax_glob_free(one), wax_glob_free(other), wax_glob_free(third);
}

static wax_set *set_of(const char *patterns) { // two patterns of 4 bytes each
  static const size_t lengths[] = {4, 4};
  size_t which;
  wax_span span;
  wax_set *set = NULL;
  CHECK(wax_set_new(patterns, 8, lengths, 2, &set, &which, &span) == 0);
  return set;
}

static void compared_sets(void) {
  wax_set *one = set_of("a/b*c/d*"), *other = set_of("*/xyc/dd"), *third = set_of("x/b*y/d*");
  find(set_overlap, one, other, 100000, 1, "c/dd");
  find(set_overlap, one, third, 100000, 0, "");
  find(set_overlap, one, other, 1, 2, "");
  find(set_difference, one, other, 100000, 1, "a/b");
  find(set_compare, other, one, 100000, 1, "a/b");
  find(set_difference, one, other, 1, 2, "");
  find(set_compare, one, other, 1, 2, "");
  CHECK(wax_set_is_match(one, TEXT("a/bc")) == 1);
  wax_set_free(third);
  third = set_of("c/d*a/b*");
  find(set_difference, one, third, 100000, 0, "");
  find(set_compare, one, third, 100000, 0, "");
  wax_set_free(one), wax_set_free(other), wax_set_free(third);
}

static wax_ignore *list_of(const char *text) {
  size_t line;
  wax_ignore *list = NULL;
  CHECK(wax_ignore_new(text, strlen(text), &list, &line) == 0 && line == 0);
  return list;
}

static void compared_lists(void) {
  wax_ignore *one = list_of("**/*.o\n!keep.o\n"), *other = list_of("**/*.o\n"), *third = list_of("a\n!keep.o\n**/*.o\n!keep.o\n!a\n");
  find(ignore_overlap, one, other, 100000, 1, ".o");
  find(ignore_difference, other, one, 100000, 1, "keep.o");
  find(ignore_difference, one, other, 100000, 0, "");
  find(ignore_compare, one, other, 100000, 1, "keep.o");
  find(ignore_compare, other, one, 100000, 1, "keep.o");
  find(ignore_compare, one, third, 100000, 0, "");
  find(ignore_overlap, one, other, 0, 2, "");
  find(ignore_difference, other, one, 0, 2, "");
  find(ignore_compare, one, other, 0, 2, "");
  CHECK(wax_ignore_is_ignored(one, TEXT("a/keep.o")) == 1 && wax_ignore_is_ignored(one, TEXT("keep.o")) == 0);
  wax_ignore_free(one), wax_ignore_free(other), wax_ignore_free(third);
}

/* Calls that find lines of a list write what they find, if there is room for it, and how many that are. */
typedef int32_t lines_by(const wax_ignore *list, size_t most_states, size_t *lines, size_t room, size_t *count);
static void find_lines(lines_by *call, const wax_ignore *list, size_t most_states, int32_t wanted, size_t length, const size_t *lines) {
  size_t found[9] = {7, 7, 7, 7, 7, 7, 7, 7, 7}, count = 7;
  CHECK(length < 9 && call(list, most_states, found, length, &count) == wanted && count == length);
  CHECK((!length || !memcmp(found, lines, length * sizeof *lines)) && found[length] == 7);
  if (length) {
    found[0] = 7, count = 7;
    CHECK(call(list, most_states, found, length - 1, &count) == -21 && count == length && found[0] == 7);
  }
}

static void found_lines(void) {
  wax_ignore *list = list_of("docs/*.o\n# none\n!keep.c\n**/*.o\na\n");
  find_lines(wax_ignore_idle_lines, list, 100000, 0, 2, (size_t[]){0, 1});
  find_lines(wax_ignore_undecided_lines, list, 100000, 0, 0, NULL);
  find_lines(wax_ignore_tidy, list, 100000, 0, 2, (size_t[]){2, 3});
  find_lines(wax_ignore_idle_lines, list, 0, 2, 0, NULL);
  find_lines(wax_ignore_undecided_lines, list, 0, 2, 4, (size_t[]){0, 1, 2, 3});
  find_lines(wax_ignore_tidy, list, 0, 2, 4, (size_t[]){0, 1, 2, 3});
  wax_ignore_free(list);
  list = list_of("**/*.o\ndocs/a\n!docs/a\n"); // without the second line, the third one takes nothing back
  find_lines(wax_ignore_idle_lines, list, 100000, 0, 1, (size_t[]){1});
  find_lines(wax_ignore_tidy, list, 100000, 0, 1, (size_t[]){0});
  wax_ignore_free(list);
  list = list_of("");
  find_lines(wax_ignore_undecided_lines, list, 0, 0, 0, NULL);
  find_lines(wax_ignore_tidy, list, 0, 0, 0, NULL);
  wax_ignore_free(list);
}

/* A set of so many patterns decides by the program that numbers them. */
static void large_set(void) {
  enum { MANY = 40 };
  char patterns[MANY * 16], path[32];
  size_t lengths[MANY], length = 0, which, found[2], count;
  for (int at = 0; at < MANY; at++) {
    lengths[at] = (size_t)sprintf(patterns + length, "**/d%d/*.c", at);
    length += lengths[at];
  }
  wax_span span;
  wax_set *set = NULL;
  CHECK(wax_set_new(patterns, length, lengths, MANY, &set, &which, &span) == 0 && which == MANY);
  for (int at = 0; at < 6 * MANY; at++) { // the paths with numbers from MANY on don't match, and all come again
    int number = at % (2 * MANY), matches = number < MANY;
    size_t written = (size_t)sprintf(path, "src/d%d/a.c", number);
    CHECK(wax_set_is_match(set, path, written) == matches);
    CHECK(wax_set_matches(set, path, written, found, 2, &count) == 0 && count == (size_t)matches);
    CHECK(!matches || found[0] == (size_t)number);
    CHECK(wax_set_goes_on(set, path, written - 4) == 1);
  }
  wax_set_free(set);
}

static void lists(void) {
  size_t line = 7;
  wax_ignore *list = NULL;
  CHECK(wax_ignore_new(TEXT("# logs\n**/*.log\n!x/**\nbuilt/**\n"), &list, &line) == 0 && list != NULL && line == 0);
  for (int time = 0; time < 2; time++) {
    CHECK(wax_ignore_is_ignored(list, TEXT("a.log")) == 1);
    CHECK(wax_ignore_is_ignored(list, TEXT("y/b.log")) == 1);
    CHECK(wax_ignore_is_ignored(list, TEXT("x/a.log")) == 0);
    CHECK(wax_ignore_is_ignored(list, TEXT("a")) == 0);
    CHECK(wax_ignore_excludes_below(list, TEXT("built")) == 1);
    CHECK(wax_ignore_excludes_below(list, TEXT("built/a")) == 1);
    CHECK(wax_ignore_excludes_below(list, TEXT("x")) == 0);
    CHECK(wax_ignore_excludes_below(list, "", 0) == 0);
    CHECK(wax_ignore_deciding_line(list, TEXT("y/b.log"), &line) == 1 && line == 0);
    CHECK(wax_ignore_deciding_line(list, TEXT("x/a.log"), &line) == 1 && line == 1);
    CHECK(wax_ignore_deciding_line(list, TEXT("built/a.log"), &line) == 1 && line == 2);
    CHECK(wax_ignore_deciding_line(list, TEXT("a"), &line) == 0 && line == 0);
  }
  line = 7;
  CHECK(wax_ignore_deciding_line(list, "\xff", 1, &line) == -20 && line == 0);
  CHECK(wax_ignore_is_ignored(list, "\xff", 1) == -20);
  static const char input[] = "a.log\nx/a.log\n\xff\nb", kept[] = "x/a.log\nb\n";
  char output[20];
  size_t written = 77;
  memset(output, '#', sizeof output);
  CHECK(wax_ignore_filter(list, TEXT(input), output, 9, &written) == -21 && written == 10 && output[0] == '#');
  CHECK(wax_ignore_filter(list, TEXT(input), output, sizeof output, &written) == 0 && written == 10);
  CHECK(memcmp(output, kept, written) == 0 && output[written] == '#');
  CHECK(wax_ignore_excludes_below(list, "\xff", 1) == -20);
  wax_ignore_free(list);
  wax_ignore_free(NULL);
  CHECK(wax_ignore_new(TEXT("a\n\n{b\n{c\n"), &list, &line) == -1 && list == NULL && line == 3);
  CHECK(wax_ignore_new("\xff", 1, &list, &line) == -20 && list == NULL && line == 0);
}

// one call of each, whose answers are 1 or 0 or a refusal; returns how many were refused
static int calls(void) {
  char output[100];
  size_t written, line, lengths[4], count;
  wax_span span;
  wax_glob *glob, *rest;
  wax_set *set;
  wax_ignore *list;
  int none = 0;
  int32_t status = wax_glob_new(TEXT(expression), &glob, &span);
  none += status == -10;
  CHECK(status == 0 ? glob != NULL : status == -10 && glob == NULL);
  if (glob) {
    status = wax_glob_is_match(glob, TEXT("src/a/b.rs"));
    none += status == -10;
    CHECK(status == 1 || status == -10);
    status = wax_glob_goes_on(glob, TEXT("src/a"));
    none += status == -10;
    CHECK(status == 1 || status == -10);
    status = wax_glob_filter(glob, TEXT(lines), output, sizeof output, &written);
    none += status == -10;
    CHECK(status == 0 ? written == strlen(wanted) : status == -10 && written == 0);
    status = wax_glob_captures(glob, TEXT("src/a/b.rs"), output, sizeof output, lengths, 4, &count);
    none += status == -10;
    CHECK(status == 1 ? count == 3 : status == -10 && count == 0);
    wax_span spans[4];
    status = wax_glob_spans(glob, TEXT("src/a/b.rs"), spans, 4, &count);
    none += status == -10;
    CHECK(status == 1 ? count == 3 : status == -10 && count == 0);
    status = wax_glob_capturing(glob, spans, 4, &count);
    none += status == -10;
    CHECK(status == 0 ? count == 3 : status == -10 && count == 0);
    wax_warning warned[4];
    status = wax_glob_warnings(glob, warned, 4, &count);
    none += status == -10;
    CHECK((status == 0 || status == -10) && count == 0);
    status = wax_glob_has_semantic_literals(glob);
    none += status == -10;
    CHECK(status == 0 || status == -10);
    status = wax_glob_text(glob, output, sizeof output, &written);
    none += status == -10;
    CHECK((status == 0 || status == -10) && written == 0);
    CHECK(wax_glob_expression(glob, output, sizeof output, &written) == 0 && written == strlen(expression));
    status = wax_glob_partition(glob, output, sizeof output, &written, &rest);
    none += status == -10;
    CHECK(status == 0 ? written == 3 && rest != NULL : status == -10 && written == 0 && rest == NULL);
    wax_glob_free(rest);
  }
  wax_glob_free(glob);
  status = wax_filter(TEXT(expression), TEXT(lines), output, sizeof output, &written);
  none += status == -10;
  CHECK(status == 0 ? written == strlen(wanted) : status == -10 && written == 0);
  status = wax_is_match(TEXT(expression), TEXT("src/a/b.c"));
  none += status == -10;
  CHECK(status == 0 || status == -10);
  status = wax_escape(TEXT("a*"), output, sizeof output, &written);
  none += status == -10;
  CHECK(status == 0 ? written == 3 : status == -10 && written == 0);
  status = wax_picture(TEXT("a//b"), output, sizeof output, &written);
  none += status == -10;
  CHECK(status == 0 ? written > 5 : status == -10 && written == 0);
  status = wax_overlap(TEXT("a/*"), TEXT("*/b"), 1000, output, sizeof output, &written, &line, &span);
  none += status == -10;
  CHECK(status == 1 ? written == 3 : status == -10 && written == 0);
  status = wax_difference(TEXT("a/*"), TEXT("*/b"), 1000, output, sizeof output, &written, &line, &span);
  none += status == -10;
  CHECK(status == 1 ? written == 3 : status == -10 && written == 0);
  status = wax_compare(TEXT("a/*"), TEXT("a/**"), 1000, output, sizeof output, &written, &line, &span);
  none += status == -10;
  CHECK(status == 1 ? written == 1 : status == -10 && written == 0);
  status = wax_set_new(TEXT("*.ca/**"), (size_t[]){3, 4}, 2, &set, &line, &span);
  none += status == -10;
  CHECK(status == 0 ? set != NULL && line == 2 : status == -10 && set == NULL);
  if (set) {
    status = wax_set_is_match(set, TEXT("a/b"));
    none += status == -10;
    CHECK(status == 1 || status == -10);
    status = wax_set_matches(set, TEXT("a/b"), lengths, 4, &count);
    none += status == -10;
    CHECK(status == 0 ? count == 1 && lengths[0] == 1 : status == -10 && count == 0);
    status = wax_set_goes_on(set, TEXT("b"));
    none += status == -10;
    CHECK(status == 0 || status == -10);
    status = wax_set_text(set, output, sizeof output, &written);
    none += status == -10;
    CHECK((status == 0 || status == -10) && written == 0);
    wax_set *other;
    status = wax_set_new(TEXT("a/b"), (size_t[]){3}, 1, &other, &line, &span);
    none += status == -10;
    CHECK(status == 0 ? other != NULL : status == -10 && other == NULL);
    if (other) {
      status = wax_set_overlap(set, other, 1000, output, sizeof output, &written);
      none += status == -10;
      CHECK(status == 1 ? written == 3 : status == -10 && written == 0);
      status = wax_set_difference(other, set, 1000, output, sizeof output, &written);
      none += status == -10;
      CHECK((status == 0 || status == -10) && written == 0);
      status = wax_set_compare(set, other, 1000, output, sizeof output, &written);
      none += status == -10;
      CHECK(status == 1 ? written == 1 : status == -10 && written == 0);
    }
    wax_set_free(other);
  }
  wax_set_free(set);
  status = wax_ignore_new(TEXT("**/*.log\n!x/**\n"), &list, &line);
  none += status == -10;
  CHECK(line == 0 && (status == 0 ? list != NULL : status == -10 && list == NULL));
  if (list) {
    status = wax_ignore_is_ignored(list, TEXT("y/b.log"));
    none += status == -10;
    CHECK(status == 1 || status == -10);
    status = wax_ignore_filter(list, "a.log\nb\n", 8, output, sizeof output, &written);
    none += status == -10;
    CHECK(status == 0 ? written == 2 : status == -10 && written == 0);
    status = wax_ignore_excludes_below(list, TEXT("x"));
    none += status == -10;
    CHECK(status == 0 || status == -10);
    status = wax_ignore_deciding_line(list, TEXT("x/b.log"), &line);
    none += status == -10;
    CHECK(status == 1 ? line == 1 : status == -10 && line == 0);
    status = wax_ignore_idle_lines(list, 1000, lengths, 4, &count);
    none += status == -10;
    CHECK((status == 0 || status == -10) && count == 0);
    status = wax_ignore_undecided_lines(list, 0, lengths, 4, &count);
    none += status == -10;
    CHECK(status == 2 ? count == 2 && lengths[1] == 1 : status == -10 && count == 0);
    status = wax_ignore_tidy(list, 1000, lengths, 4, &count);
    none += status == -10;
    CHECK(status == 0 ? count == 2 && lengths[1] == 1 : status == -10 && count == 0);
    wax_ignore *other;
    status = wax_ignore_new(TEXT("**/*.log\n"), &other, &line);
    none += status == -10;
    CHECK(status == 0 ? other != NULL : status == -10 && other == NULL);
    if (other) {
      status = wax_ignore_compare(list, other, 1000, output, sizeof output, &written);
      none += status == -10;
      CHECK(status == 1 ? written == 6 : status == -10 && written == 0);
    }
    wax_ignore_free(other);
  }
  wax_ignore_free(list);
  return none;
}

static void failing(void) {
  wax_refuse(0);
  CHECK(calls() == 0);
  long all = wax_requests();
  int some = 0;
  for (long number = 1; number <= all; number++) {
    wax_refuse(number);
    int none = calls();
    CHECK(none <= 1); // (the library does without some)
    some += none;
    CHECK(wax_blocks() == 0);
  }
  wax_refuse(0);
  CHECK(calls() == 0);
  CHECK(some > 0);
  printf("%ld allocations failed in turn, and %d calls for it\n", all, some);
}

int main(int count, char **words) {
  if (count > 1 && !strcmp(words[1], "fail")) {
    failing();
  } else {
    expressions(), errors(), filters(), texts(), comparisons(), comparison_errors(), globs(), captures(), spans(), capturing(), warnings(), parts(), sets(), facts_of_sets(), compared_globs(), compared_sets(), large_set(), lists(), compared_lists(), found_lines();
    CHECK(wax_blocks() == 0);
  }
  printf("%ld checks failed\n", failures);
  return failures != 0;
}
