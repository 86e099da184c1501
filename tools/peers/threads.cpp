// What threads pay for recordings on one counter of the Prometheus client for C++, with three labels and 1,000 series:
// for a look beside `tools/measure threads`, in the same minutes. Printed are nanoseconds for a recording of
// each thread: the median of nine runs, and between what they lie.
//
//     c++ -O2 -std=c++17 tools/peers/threads.cpp -lprometheus-cpp-core -lpthread -o threads && ./threads
#include <prometheus/counter.h>
#include <prometheus/family.h>
#include <prometheus/registry.h>

#include <algorithm>
#include <array>
#include <chrono>
#include <cstdio>
#include <map>
#include <string>
#include <thread>
#include <vector>

using prometheus::Counter;
using Family = prometheus::Family<Counter>;
using Labels = std::map<std::string, std::string>;

constexpr int SERIES = 1000;
constexpr int RECORDINGS = 200000;

enum class Way { at_the_call, family_each, held };

static std::vector<Labels> all_labels() {
    std::vector<Labels> all;
    for (int i = 0; i < SERIES; i++)
        all.push_back({ { "route", "/r" + std::to_string(i % 10) },
                        { "method", "m" + std::to_string(i / 10 % 10) },
                        { "status", "s" + std::to_string(i / 100) } });
    return all;
}

static void record(Way way, const std::vector<Labels> &labels, Family &family, const std::vector<Counter *> &held) {
    for (int i = 0; i < RECORDINGS; i++) {
        if (way == Way::held)
            held[i % SERIES]->Increment();
        else
            family.Add(labels[i % SERIES]).Increment();
    }
}

// Nanoseconds for a recording of each thread, once.
static double run(Way way, int threads, const std::vector<Labels> &labels) {
    prometheus::Registry registry;
    std::vector<Family *> families;
    std::vector<std::vector<Counter *>> held(threads);
    for (int t = 0; t < threads; t++) {
        bool is_own = t == 0 || way == Way::family_each;
        std::string name = "c" + std::to_string(t);
        families.push_back(is_own ? &prometheus::BuildCounter().Name(name).Register(registry) : families[0]);
        for (const Labels &of : labels) held[t].push_back(&families[t]->Add(of));
    }
    std::vector<std::thread> all;
    auto began = std::chrono::steady_clock::now();
    for (int t = 0; t < threads; t++) all.emplace_back([&, t] { record(way, labels, *families[t], held[t]); });
    for (std::thread &thread : all) thread.join();
    return std::chrono::duration<double, std::nano>(std::chrono::steady_clock::now() - began).count() / RECORDINGS;
}

int main() {
    const std::vector<Labels> labels = all_labels();
    const char *names[] = { "one counter, labels at the call", "a counter each, labels at the call",
                            "one counter, a handle for each series" };
    for (int threads : { 1, 2, 4 })
        for (Way way : { Way::at_the_call, Way::family_each, Way::held }) {
            std::array<double, 9> runs;
            for (double &it : runs) it = run(way, threads, labels);
            std::sort(runs.begin(), runs.end());
            std::printf("%-40s %d threads %9.1f ns (%.1f to %.1f)\n", names[static_cast<int>(way)], threads, runs[4],
                        runs[0], runs[8]);
        }
}
