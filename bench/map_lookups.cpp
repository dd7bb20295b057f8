// Look-ups in std::map with the names of crates/bench: "COUNT NANOSECONDS FOUND WARM" for each argument.
#include <chrono>
#include <cstdint>
#include <cstdio>
#include <cstdlib>
#include <map>
#include <string>
#include <vector>

static std::string name_of(uint64_t number) {
    char text[64];
    std::snprintf(text, sizeof text, "refs/heads/topic-%016llx",
                  (unsigned long long)(number * 0x9E3779B97F4A7C15ull));
    return text;
}

static uint64_t look(const std::map<std::string, std::string> &map, const std::vector<std::string> &names) {
    uint64_t found = 0;
    for (const auto &name : names) {
        auto at = map.find(name);
        if (at != map.end() && !at->second.empty()) found++;
    }
    return found;
}

int main(int argc, char **argv) {
    for (int i = 1; i < argc; i++) {
        uint64_t count = std::strtoull(argv[i], nullptr, 10);
        std::map<std::string, std::string> map;
        for (uint64_t number = 0; number < count; number++) map.emplace(name_of(number), std::string(20, '\1'));
        std::vector<std::string> names;
        uint64_t seed = 12345;
        for (int step = 0; step < 200000; step++) {
            seed = seed * 6364136223846793005ull + 1442695040888963407ull;
            names.push_back(name_of((seed >> 33) % (count ? count : 1)));
        }
        uint64_t warm = look(map, names);
        auto start = std::chrono::steady_clock::now();
        uint64_t found = look(map, names);
        auto each = std::chrono::duration_cast<std::chrono::nanoseconds>(std::chrono::steady_clock::now() - start).count() / 200000;
        std::printf("%llu %lld %llu %llu\n", (unsigned long long)count, (long long)each, (unsigned long long)found, (unsigned long long)warm);
        std::fflush(stdout);
    }
}
