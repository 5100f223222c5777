// filter_re2 REGEX FILE: writes the lines of a file that match the regex, by RE2. bench/filters builds and times it.
#include <cstdio>
#include <fstream>
#include <iterator>
#include <string>

#include <re2/re2.h>

int main(int count, char **words) {
    if (count != 3) {
        std::fputs("usage: filter_re2 REGEX FILE\n", stderr);
        return 2;
    }
    std::ifstream file(words[2], std::ios::binary);
    const std::string text((std::istreambuf_iterator<char>(file)), std::istreambuf_iterator<char>());
    const RE2 regex(words[1], RE2::Quiet);
    if (!file || !regex.ok()) {
        std::fprintf(stderr, "filter_re2: %s\n", regex.ok() ? "the file isn't read" : regex.error().c_str());
        return 2;
    }
    for (size_t start = 0; start < text.size();) {
        const size_t feed = text.find('\n', start);
        const size_t end = feed == std::string::npos ? text.size() : feed;
        const re2::StringPiece line(text.data() + start, end - start);
        if (RE2::PartialMatch(line, regex)) {
            std::fwrite(line.data(), 1, line.size(), stdout);
            std::putc('\n', stdout);
        }
        start = end + 1;
    }
    return std::fflush(stdout) == 0 ? 0 : 1;
}
