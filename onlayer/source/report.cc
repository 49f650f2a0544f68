#include "report.h"
#include <stdlib.h>
#include <string.h>
#include <sys/syscall.h>
#include <sys/wait.h>
#include <unistd.h>
#include <algorithm>
#include <fstream>
#include "tell.h"
#include "text.h"

static std::string quoted(const std::string &words) {
    std::string out = "\"";
    for (unsigned char byte : words) {
        if (byte == '"' || byte == '\\') out += '\\';
        if (byte >= 0x20) out += (char)byte;
        else out += "\\u00" + hex(std::string(1, (char)byte));
    }
    return out + "\"";
}

// A line of text, or an object of JSON with the same fields.
class Line {
    bool json;
    std::string words;

public:
    Line(bool json, const std::string &kind) : json(json) { words = json ? "{\"kind\":" + quoted(kind) : ""; }
    Line &say(const std::string &plain) {
        if (!json) words += plain;
        return *this;
    }
    Line &field(const std::string &name, long value) {
        if (json) words += "," + quoted(name) + ":" + text(value);
        return *this;
    }
    Line &field(const std::string &name, const std::string &value) {
        if (json) words += "," + quoted(name) + ":" + quoted(value);
        return *this;
    }
    std::string end() const { return words + (json ? "}\n" : "\n"); }
};

struct OtherEnd {                              // of a call's socket, as the layer tells it
    const Process *process = nullptr;          // that has it
    long unread = 0;                           // bytes
};

static OtherEnd other_end(const World &world, std::map<int, Held> &holders, const Call &call) {
    OtherEnd other;
    int peer = call.number ? holders[call.number->file->id].peer : -1;
    if (peer < 0 || holders[peer].processes.empty()) return other;
    auto process = world.by_layer.find(holders[peer].processes.front());
    auto file = world.files.find(peer);
    if (process != world.by_layer.end()) other.process = process->second;
    if (file != world.files.end()) other.unread = file->second->told.bytes;
    return other;
}

static std::string words_of(const World &world, const OtherEnd &other) {
    if (!other.process) return "";
    std::string has = ", whose other end " + world.title(*other.process) + " has";
    return other.unread ? has + ", with " + text(other.unread) + (other.unread == 1 ? " byte" : " bytes") + " unread" : has;
}

static std::string who_waits(World &world) {
    std::string lines;
    std::map<int, Held> holders = world.layer->holders();
    for (auto &[task, call] : world.calls) {
        if (!call.waits()) continue;
        OtherEnd other = other_end(world, holders, call);
        lines += Line(world.options.json, "waits")
                     .say("  " + world.title(*call.process) + " waits in " + call_name(call.nr()) + " of " + text(call.argument(0)) + words_of(world, other))
                     .field("program", call.process->program).field("pid", call.process->pid).field("task", call.task)
                     .field("call", call_name(call.nr())).field("number", call.argument(0)).field("other_pid", other.process ? other.process->pid : 0)
                     .field("other_unread", other.unread)
                     .end();
    }
    return lines;
}

static std::string helper_path(const World &world, const std::string &name) {
    return world.options.own_path.substr(0, world.options.own_path.rfind('/')) + "/telling/" + name;
}

// Runs the script again, to a moment, and tells who holds what then.
static pid_t start_telling(const World &world, const std::string &what, const std::string &when, const std::string &script, bool removes) {
    std::string helper = helper_path(world, "tell.py");
    pid_t child = fork();
    if (child) return child;
    dup2(told_where(), 1);
    sigset_t none;
    sigemptyset(&none);
    sigprocmask(SIG_SETMASK, &none, nullptr);
    std::vector<const char *> words = {"python3", helper.c_str(), what.c_str(), when.c_str(), script.c_str(), "--uxrun", world.options.uxrun.c_str()};
    if (world.options.json) words.push_back("--json");
    if (removes) words.push_back("--remove");
    words.push_back(nullptr);
    execvp(words[0], (char *const *)words.data());
    dprintf(2, "onlayer: can't run python3, which tells holders: %s\n", strerror(errno));
    _exit(127);
}

void report_now(World &world) {
    long waiting = 0;
    for (auto &[task, call] : world.calls) waiting += call.waits();
    world.layer->flush();
    Line line(world.options.json, "now");
    line.say("onlayer: " + text(world.layer->calls()) + " calls of the layer so far; " + text(waiting) + " calls wait");
    tell(line.field("calls", world.layer->calls()).field("waiting", waiting).end() + who_waits(world));
    static unsigned long asked = 0;
    ++asked;                                               // two that are told at once don't share a copy, which the first removes
    for (const char *what : {"holders", "audit"}) {        // of a copy, since the script goes on
        std::string copy = world.options.script + "." + what + "." + text(asked);
        std::ofstream(copy, std::ios::binary) << std::ifstream(world.options.script, std::ios::binary).rdbuf();
        start_telling(world, what, "end", copy, true);
    }
}

void report_deadlock(World &world) {
    tell(Line(world.options.json, "deadlock").say("onlayer: deadlock: every thread waits for the layer").end() + who_waits(world));
}

static std::string unused_listeners(World &world) {
    std::string lines;
    for (auto &[entry, what] : world.inherited) {
        if (what.used) continue;
        Line line(world.options.json, "unused listener");
        line.say("onlayer: " + what.program + " (pid " + text(what.pid) + ") found a listening socket open as " + text(what.number) + ", " +
                 what.name + ", and never used it");
        lines += line.field("program", what.program).field("pid", what.pid).field("number", what.number).field("name", what.name).end();
    }
    return lines;
}

static std::string summary(const World &world) {
    const Counts &counts = world.counts;
    unsigned long in_flight = counts.rights_sent - std::min(counts.rights_sent, counts.rights_received);
    Line line(world.options.json, "summary");
    line.say("onlayer: " + text(counts.answered) + " calls answered by the layer, " + text(counts.passed) + " let through, " + text(counts.refused) +
             " refused, " + text(counts.failed) + " failed as asked; " + text(counts.outside) + " connections to servers outside, " +
             text(counts.guests) + " guests from outside; " + text(in_flight) + " descriptors in flight that nobody received");
    line.field("answered", counts.answered).field("passed", counts.passed).field("refused", counts.refused).field("failed", counts.failed);
    line.field("outside", counts.outside).field("guests", counts.guests).field("in_flight", in_flight).field("put_off", counts.put_off);
    return line.field("out_of_step", counts.out_of_step).field("layer_calls", world.layer->calls()).end();
}

void report_end(World &world, unsigned long calls_at_end) {
    for (auto &[what, when] : {std::pair{"holders", world.options.holders}, {"audit", world.options.audit}}) {
        int status;
        if (when.empty()) continue;
        std::string moment = when == "end" ? text(calls_at_end) : when;
        waitpid(start_telling(world, what, moment, world.options.script, false), &status, 0);
    }
    if (!world.options.quiet) tell(summary(world) + unused_listeners(world));
}
