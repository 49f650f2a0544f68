// onlayer: runs a program whose AF_UNIX sockets are those of the layer.
#include <errno.h>
#include <limits.h>
#include <stdlib.h>
#include <string.h>
#include <unistd.h>
#include <filesystem>
#include "supervisor.h"
#include "tell.h"
#include "text.h"

static const int OWN_FAILURE = 125;

// The script is kept where it was asked for, or for as long as onlayer runs.
static std::string script_path(const Options &options) {
    if (!options.script.empty()) return options.script;
    const char *folder = getenv("TMPDIR");
    std::string path = std::string(folder && *folder ? folder : "/tmp") + "/onlayer-XXXXXX";
    int file = mkstemp(&path[0]);
    if (file < 0) throw Fault("no temporary file " + path + ": " + strerror(errno));
    close(file);
    return path;
}

static int run(Options &options) {
    if (!options.log.empty() && !tell_to(options.log)) throw Fault("can't write " + options.log + ": " + strerror(errno));
    bool keeps = !options.script.empty();
    options.script = std::filesystem::absolute(script_path(options));
    options.uxserve = std::filesystem::absolute(options.uxserve);
    options.uxrun = std::filesystem::absolute(options.uxrun);
    sigset_t watched = watched_signals();
    sigprocmask(SIG_BLOCK, &watched, nullptr);
    std::string limit = text(options.table_limit);
    bool is_root = geteuid() == 0;
    std::string own = "proc " + text(geteuid()) + " " + text(getegid()) + (is_root ? " 1 " : " 0 ") + limit, guests = "proc 0 0 1 " + limit;
    World world(std::make_unique<Layer>(options.uxserve, options.script, std::vector<std::string>{"serial", own, guests}), options);
    world.outside = std::make_unique<Outside>(world);
    Supervisor supervisor(world);
    int status = supervisor.run();
    if (!keeps) unlink(options.script.c_str());
    return status;
}

// --orders: a program of its own runs onlayer again and again.
[[noreturn]] static void run_orders(const Options &options) {
    std::string helper = options.own_path.substr(0, options.own_path.rfind('/')) + "/telling/orders.py";
    std::vector<std::string> words = {"python3", helper, "--onlayer", options.own_path, "--uxserve", options.uxserve, "--uxrun", options.uxrun, "--count", text(options.orders)};
    if (options.json) words.push_back("--json");
    if (options.queue_limit) words.push_back("--with=--qlimit=" + text(options.queue_limit));
    if (options.table_limit != 4096) words.push_back("--with=--nofile=" + text(options.table_limit));
    for (auto &failure : options.failures)
        words.push_back("--with=--fail=" + call_name(failure.call) + ":" + text(failure.at) + ":" + errno_name(failure.error));
    words.push_back("--");
    std::vector<char *> all;
    for (auto &word : words) all.push_back(&word[0]);
    all.insert(all.end(), options.command.begin(), options.command.end());
    execvp(all[0], all.data());
    throw Fault(std::string("can't run python3, which compares orders: ") + strerror(errno));
}

int main(int count, char **words) {
    try {
        Options options = read_options(count, words);
        if (options.orders) run_orders(options);
        return run(options);
    } catch (const Fault &fault) {
        tell(std::string("onlayer: ") + fault.what() + "\n");
        return OWN_FAILURE;
    }
}
