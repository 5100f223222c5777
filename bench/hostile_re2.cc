// hostile_re2 REGEX RUNS: times single paths by RE2, as bench/hostile.rs does; REGEX is a file. bench/hostile builds and runs it.
#include <algorithm>
#include <ctime>
#include <fstream>
#include <iostream>
#include <iterator>
#include <memory>
#include <string>
#include <utility>

#include <re2/re2.h>

using Taken = std::pair<long long, bool>;

// Returns how many nanoseconds this thread has run on a processor.
static long long thread_time() {
    timespec time;
    clock_gettime(CLOCK_THREAD_CPUTIME_ID, &time);
    return 1000000000LL * time.tv_sec + time.tv_nsec;
}

// Returns the nanoseconds that a match takes, and whether the path matches.
static Taken timed(const RE2 &regex, const std::string &path) {
    const long long start = thread_time();
    const bool is_match = RE2::PartialMatch(path, regex);
    return {thread_time() - start, is_match};
}

int main(int count, char **words) {
    if (count != 3) {
        std::cerr << "usage: hostile_re2 REGEX RUNS\n";
        return 2;
    }
    std::ifstream file(words[1]);
    const std::string expression((std::istreambuf_iterator<char>(file)), std::istreambuf_iterator<char>());
    const int runs = std::stoi(words[2]);
    const RE2 kept(expression, RE2::Quiet);
    std::cout << (kept.ok() ? "built" : "not built") << std::endl;
    for (std::string path; kept.ok() && std::getline(std::cin, path);) {
        Taken least = runs == 0 ? timed(kept, path) : Taken{-1, false};
        for (int run = 0; run < runs; run++) {
            const RE2 made(expression, RE2::Quiet);
            const Taken taken = timed(made, path);
            least = run == 0 ? taken : std::min(least, taken);
        }
        std::cout << least.first << ' ' << least.second << std::endl;
    }
    return 0;
}
