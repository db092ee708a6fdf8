// Makes calls of C and C++. bench/run says how each such program is called, and puts the calls of
// its table into this one.
#include <chrono>
#include <cstdint>
#include <cstdio>
#include <duration_str.h>
#include <fstream>
#include <string>
#include <unistd.h>
#include <vector>
#if __has_include(<absl/time/time.h>)
#include <absl/time/time.h>
static absl::Duration parsed;
#endif

static uint64_t nanos;
static char buffer[DURATION_STR_ONE_LINE_BUFFER_SIZE];

static double now()
{
    using namespace std::chrono;
    return duration<double, std::nano>(steady_clock::now().time_since_epoch()).count();
}

int main(int count, char **words)
{
    for (int place = 3; place + 1 < count; place += 2) {
        std::string call = words[place], line;
        std::ifstream file(words[place + 1]);
        std::vector<std::string> texts;
        std::vector<uint64_t> lengths;
        while (std::getline(file, line)) {
            texts.push_back(line);
            if (duration_str_parse(line.data(), line.size(), &nanos))
                lengths.push_back(nanos);
        }
        auto round = [](auto &items, auto made) {
            double start = now();
            for (auto &item : items) {
                made(item);
                asm volatile("" ::: "memory");
            }
            return (now() - start) / items.size();
        };
        auto rounds = [&](auto &items, auto made) {
            double quickest = round(items, made), start = now();
            getppid();
            for (int done = 0;
                 done < std::stoi(words[1]) || now() - start < 1e6 * std::stoi(words[2]); done++)
                quickest = std::min(quickest, round(items, made));
            getppid();
            std::printf("%.1f\n", quickest);
        };
        // CALLS
    }
}
