// Measures what recording a call costs: at a place that is known, or with a number of the counter that all threads share; with room for all
// lines, or with none at first.
//
//     measure [ROUNDS]     prints, for 1 thread and for 4, the least, the median and the greatest time of a call over 15 or ROUNDS rounds
//
// A round is 20,000 calls of each thread in transactions of five. The time is the processor time of the slowest thread, so that other
// programs count little. Writing the lines, to /dev/null, is not timed.
#include "program.hpp"

#include <algorithm>
#include <cstdio>
#include <cstdlib>
#include <ctime>

namespace {

constexpr unsigned transactions = 4'000;
constexpr unsigned calls = 5;

struct Case {
    const char* name;
    bool shares_counter;
    std::size_t expected_lines;
};

constexpr Case cases[] = {
    {"own versions, room for all lines", false, transactions * (calls + 2)},
    {"shared counter, room for all lines", true, transactions * (calls + 2)},
    {"shared counter, no room at first", true, 0},
};

double thread_nanoseconds() {
    std::timespec time{};
    clock_gettime(CLOCK_THREAD_CPUTIME_ID, &time);
    return 1e9 * static_cast<double>(time.tv_sec) + static_cast<double>(time.tv_nsec);
}

// Nanoseconds for a call, its share of begin and commit included.
double time_round(unsigned threads, const Case& measured) {
    pozhiqas::Recorder recorder("/dev/null", pozhiqas::Style::boosted);
    const pozhiqas::Memory memory = recorder.add_memory("m");
    std::vector<pozhiqas::Thread*> lines;
    for (unsigned index = 0; index < threads; ++index) lines.push_back(&recorder.add_thread(measured.expected_lines));
    std::vector<double> times(threads);
    program::run_threads(threads, [&](unsigned index) {
        pozhiqas::Thread& thread = *lines[index];
        std::uint64_t version = 1;
        const auto next = [&] { return measured.shares_counter ? recorder.next() : pozhiqas::Place{version++, 0}; };
        const double start = thread_nanoseconds();
        for (unsigned count = 0; count < transactions; ++count) {
            thread.begin();
            for (unsigned call = 0; call < calls; ++call) thread.call(memory.read(call, count), next());
            thread.commit(next());
        }
        times[index] = (thread_nanoseconds() - start) / (transactions * calls);
    });
    recorder.close();
    return *std::max_element(times.begin(), times.end());
}

void print_times(unsigned threads, const Case& measured, unsigned rounds) {
    std::vector<double> times;
    for (unsigned round = 0; round < rounds; ++round) times.push_back(time_round(threads, measured));
    std::sort(times.begin(), times.end());
    std::printf("%u thread%s, %s: least %.1f, median %.1f, greatest %.1f ns a call\n", threads, threads == 1 ? "" : "s", measured.name,
                times.front(), times[times.size() / 2], times.back());
}

}  // namespace

int main(int count, char** arguments) {
    try {
        const unsigned rounds = count > 1 ? program::number("ROUNDS", arguments[1]) : 15;
        if (rounds == 0) throw program::Usage("ROUNDS 0: at least one is needed");
        for (const unsigned threads : {1U, 4U}) {
            for (const Case& measured : cases) print_times(threads, measured, rounds);
        }
        return 0;
    } catch (const std::exception& error) {
        std::fprintf(stderr, "%s: %s\n", arguments[0], error.what());
        return 2;
    }
}
