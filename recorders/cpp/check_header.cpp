// Checks pozhiqas.hpp: that each wrong use is an Error that names it, and that quiet points change nothing in the run.
// Prints a line for each check that fails. The status is 0 if there is none, and else 1.
#include "pozhiqas.hpp"

#include <cstdio>
#include <fstream>
#include <functional>
#include <iterator>
#include <string>

namespace {

using pozhiqas::Place;

struct Setting {
    pozhiqas::Recorder recorder;
    pozhiqas::Memory memory;
    pozhiqas::Thread& thread;

    explicit Setting(const std::string& path)
        : recorder(path, pozhiqas::Style::optimistic), memory(recorder.add_memory("m")), thread(recorder.add_thread()) {}
};

struct Mistake {
    const char* error;  // a part of its text
    std::function<void(Setting&)> make;
};

const Mistake mistakes[] = {
    {"a begin while a transaction is open", [](Setting& s) { s.thread.begin(); s.thread.begin(); }},
    {"a call outside a transaction", [](Setting& s) { s.thread.call(s.memory.read(0, 0), {1, 0}); }},
    {"a commit outside a transaction", [](Setting& s) { s.thread.commit({1, 0}); }},
    {"without a place", [](Setting& s) { s.thread.begin(); s.thread.commit(pozhiqas::later); }},
    {"goes back from the place (2, 0) to (1, 1)", [](Setting& s) { s.thread.begin({2, 0}); s.thread.commit({1, 1}); }},
    {"is not between -10^18 and 10^18", [](Setting& s) {
         s.thread.begin();
         s.thread.call(s.memory.write(0, 1'000'000'000'000'000'001));
         s.thread.commit({1, 0});
     }},
    {"open transaction at a quiet point", [](Setting& s) { s.thread.begin({1, 0}); s.recorder.write(); }},
    {"up to (2, 0) were written", [](Setting& s) {
         s.thread.begin();
         s.thread.commit({2, 0});
         s.recorder.write();
         s.thread.begin();
         s.thread.commit({1, 0});
     }},
    {"two objects have the name m", [](Setting& s) { s.recorder.add_set("m"); }},
    {"is not 1 to 24 of the characters", [](Setting& s) { s.recorder.add_set("a b"); }},
    {"at most 256 objects", [](Setting& s) { for (int i = 0; i < 256; ++i) s.recorder.add_set("s" + std::to_string(i)); }},
    {"before the first line is written", [](Setting& s) { s.recorder.write(); s.recorder.add_set("s"); }},
    {"the run was closed", [](Setting& s) { s.recorder.close(); s.recorder.write(); }},
};

int failures = 0;

void expect(bool is_met, const std::string& check) {
    if (is_met) return;
    std::printf("%s\n", check.c_str());
    ++failures;
}

std::string text_of(const std::string& path) {
    std::ifstream file(path);
    return {std::istreambuf_iterator<char>(file), {}};
}

void check_mistake(const Mistake& mistake, const std::string& path) {
    std::string found = "no error";
    try {
        Setting setting(path);
        try {
            mistake.make(setting);
            setting.recorder.close();
        } catch (const pozhiqas::Error& error) {
            found = error.what();
            if (found.find("closed") == std::string::npos) expect(text_of(path).empty(), found + ": there is a run");
            // Ends the run, if the mistake left it open, so that the recorder has nothing to report.
            try {
                setting.recorder.close();
            } catch (const pozhiqas::Error&) {
            }
        }
    } catch (const pozhiqas::Error& error) {
        found = error.what();
    }
    expect(found.find(mistake.error) != std::string::npos, std::string("wanted: ") + mistake.error + ", found: " + found);
    std::remove(path.c_str());
}

// Three transactions, of which the second is dropped and the third has a dropped attempt.
void record(Setting& setting, bool has_quiet_points) {
    setting.recorder.start({setting.memory.write(0, 7)});
    setting.thread.begin();
    setting.thread.call(setting.memory.cas(0, 7, 8, true));
    setting.thread.commit(setting.recorder.next());
    if (has_quiet_points) setting.recorder.write();
    setting.thread.begin();
    setting.thread.call(setting.memory.read(0, 5));
    setting.thread.drop_transaction();
    setting.thread.begin(setting.recorder.next());
    setting.thread.call(setting.memory.read(0, 5));
    setting.thread.drop_attempt();
    setting.thread.call(setting.memory.read(0, 8));
    setting.thread.commit(setting.recorder.next());
    if (has_quiet_points) setting.recorder.write();
    setting.recorder.close();
}

void check_run(const std::string& path) {
    static const char* const wanted =
        R"({"run":2,"style":"optimistic","objects":[{"name":"m","kind":"mem"}],"start":{"tx":"start","ops":[)"
        R"({"id":0,"on":"m","call":"write","args":[0,7],"result":null}]}})" "\n"
        R"({"step":"begin","tx":"p0_1","thread":"p0"})" "\n"
        R"({"step":"op","tx":"p0_1","id":1,"on":"m","call":"cas","args":[0,7,8],"result":true})" "\n"
        R"({"step":"commit","tx":"p0_1"})" "\n"
        R"({"step":"begin","tx":"p0_2","thread":"p0"})" "\n"
        R"({"step":"op","tx":"p0_2","id":2,"on":"m","call":"read","args":[0],"result":8})" "\n"
        R"({"step":"commit","tx":"p0_2"})" "\n";
    for (const bool has_quiet_points : {false, true}) {
        Setting setting(path);
        record(setting, has_quiet_points);
        expect(text_of(path) == wanted, std::string("another run, quiet points: ") + (has_quiet_points ? "yes" : "no"));
        std::remove(path.c_str());
    }
}

// An open transaction keeps the lines that have a place, and loses those that have none.
void check_open_end(const std::string& path) {
    Setting setting(path);
    setting.thread.begin({1, 0});
    setting.thread.call(setting.memory.read(0, 0), {1, 1});
    setting.thread.call(setting.memory.read(0, 0));
    setting.recorder.close();
    const std::string text = text_of(path);
    expect(text.find("\"id\":0") != std::string::npos && text.find("\"id\":1") == std::string::npos, "an open transaction: " + text);
    std::remove(path.c_str());
}

}  // namespace

int main(int count, char** arguments) {
    if (count != 2) {
        std::fprintf(stderr, "usage: check_header FILE, which is written and removed\n");
        return 2;
    }
    const std::string path = arguments[1];
    for (const Mistake& mistake : mistakes) check_mistake(mistake, path);
    check_mistake({"No such file", [](Setting&) {}}, path + "/missing/run.jsonl");
    check_run(path);
    check_open_end(path);
    return failures == 0 ? 0 : 1;
}
