// What the three example programs share: their command line, and threads that meet each other often.
#ifndef PROGRAM_HPP
#define PROGRAM_HPP

#include "pozhiqas.hpp"

#include <algorithm>
#include <chrono>
#include <condition_variable>
#include <cstdint>
#include <cstdio>
#include <cstdlib>
#include <exception>
#include <functional>
#include <map>
#include <mutex>
#include <random>
#include <stdexcept>
#include <string>
#include <thread>
#include <vector>

namespace program {

struct Options {
    std::string output = "-";
    std::string schedule = "random";
    std::string bug = "none";
    unsigned seed = 1;
    unsigned threads = 4;
    unsigned transactions = 25;  // of each thread
};

// The command line is wrong.
class Usage : public std::runtime_error {
public:
    using std::runtime_error::runtime_error;
};

template <class Value>
Value chosen(const std::map<std::string, Value>& choices, const std::string& option, const std::string& name) {
    const auto found = choices.find(name);
    if (found != choices.end()) return found->second;
    std::string known;
    for (const auto& choice : choices) known += ' ' + choice.first;
    throw Usage(option + " " + name + ": not one of" + known);
}

inline unsigned number(const std::string& option, const std::string& text) {
    if (text.empty() || text.size() > 6 || text.find_first_not_of("0123456789") != std::string::npos) {
        throw Usage(option + " " + text + ": not a number from 0 to 999999");
    }
    return static_cast<unsigned>(std::stoul(text));
}

inline Options parse(int count, char** arguments) {
    Options options;
    for (int index = 1; index < count; index += 2) {
        const std::string option = arguments[index];
        if (index + 1 == count) throw Usage(option + ": no value");
        const std::string value = arguments[index + 1];
        if (option == "--output") options.output = value;
        else if (option == "--schedule") options.schedule = value;
        else if (option == "--bug") options.bug = value;
        else if (option == "--seed") options.seed = number(option, value);
        else if (option == "--threads") options.threads = number(option, value);
        else if (option == "--transactions") options.transactions = number(option, value);
        else throw Usage(option + ": not one of --output --schedule --bug --seed --threads --transactions");
    }
    return options;
}

// Runs a program and turns what it throws into one line on standard error and a status.
inline int guarded(int count, char** arguments, const std::function<void(const Options&)>& body) {
    try {
        body(parse(count, arguments));
        return 0;
    } catch (const Usage& error) {
        std::fprintf(stderr, "%s: %s\n", arguments[0], error.what());
        return 2;
    } catch (const std::exception& error) {
        std::fprintf(stderr, "%s: %s\n", arguments[0], error.what());
        return 3;
    }
}

// The choices of one thread. A seed fixes them, and not how the threads interleave.
class Choices {
public:
    Choices(unsigned seed, unsigned thread) : generator_(seed * 1009 + thread) {}
    std::uint32_t below(std::uint32_t bound) { return static_cast<std::uint32_t>(generator_() % bound); }

private:
    std::mt19937 generator_;
};

// Lets other threads run once in three times, so that transactions overlap even on one processor.
inline void maybe_yield(Choices& choices) {
    if (choices.below(3) == 0) std::this_thread::yield();
}

// Waits after a failed attempt, longer each time. Without it, thousands of attempts fail while a thread that holds a lock does not run, and
// each of them is in the record.
class Backoff {
public:
    void wait() {
        if (failures_ < 3) std::this_thread::yield();
        else std::this_thread::sleep_for(std::chrono::microseconds(50 << std::min(failures_ - 3, 5U)));
        ++failures_;
    }

private:
    unsigned failures_ = 0;
};

// Holds threads back until all have come.
class Barrier {
public:
    explicit Barrier(unsigned expected) : missing_(expected) {}
    void wait() {
        std::unique_lock<std::mutex> lock(mutex_);
        if (--missing_ == 0) all_here_.notify_all();
        all_here_.wait(lock, [this] { return missing_ == 0; });
    }

private:
    std::mutex mutex_;
    std::condition_variable all_here_;
    unsigned missing_;
};

// Runs `body` with 0 to `count` - 1, each in a thread of its own, and returns when all have ended.
inline void run_threads(unsigned count, const std::function<void(unsigned)>& body) {
    Barrier start(count);
    std::vector<std::thread> threads;
    for (unsigned index = 0; index < count; ++index) {
        threads.emplace_back([&, index] {
            start.wait();
            body(index);
        });
    }
    for (std::thread& thread : threads) thread.join();
}

}  // namespace program

#endif
