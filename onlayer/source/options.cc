#include "options.h"
#include <errno.h>
#include <getopt.h>
#include <limits.h>
#include <stdio.h>
#include <stdlib.h>
#include <string.h>
#include <unistd.h>
#include "calls.h"
#include "text.h"

static const char HELP[] =
    "usage: onlayer [OPTION..] [--] COMMAND [ARGUMENT..]\n"
    "\n"
    "Runs a command, and all that it starts, with their AF_UNIX sockets answered by\n"
    "the layer in place of the kernel.\n"
    "\n"
    "  --qlimit N       a stream's queue takes N bytes, 1 to 1048576\n"
    "  --nofile N       a process has at most N descriptors in the layer, 1 to 4096\n"
    "  --fail C:N:E     the Nth call C of a socket fails with E, as in\n"
    "                   sendmsg:3:ENOMEM; may stand several times\n"
    "  --order SEED     who goes on first, of calls that wait, is drawn\n"
    "  --orders N       runs the command under N seeds, and says which replies,\n"
    "                   outputs or statuses differ\n"
    "  --script FILE    keeps the calls of the layer, a script for uxrun\n"
    "  --holders WHEN   tells at the end who held what at WHEN: after N calls,\n"
    "                   line:N of the script, or end (of the command)\n"
    "  --audit WHEN     tells likewise through whom each descriptor came\n"
    "  --log FILE       writes what onlayer tells there, not on standard error\n"
    "  --json           tells in JSON, a value a line\n"
    "  --quiet          leaves out the paragraph at the end\n"
    "  --verbose        notes each call of the program in the script\n"
    "  --uxserve PATH   the layer's program; else that of the variable UXSERVE, or\n"
    "                   crates/uxserve/out/uxserve\n"
    "  --uxrun PATH     what tells holders and audits; else that of the variable\n"
    "                   UXRUN, or crates/uxrun/out/uxrun\n"
    "  --help, --version\n"
    "\n"
    "The status is the command's, 128 and the signal's number where one ended it,\n"
    "125 where onlayer itself fails, and 2 where its options aren't understood.\n"
    "SIGUSR1 to onlayer tells who holds what and who waits for whom now.\n";

[[noreturn]] static void leave(const std::string &why) {
    fprintf(stderr, "onlayer: %s (onlayer --help lists the options)\n", why.c_str());
    exit(2);
}

static long read_number(const char *option, const char *word, long least, long most) {
    char *end;
    errno = 0;
    long value = strtol(word, &end, 10);
    if (errno || !*word || *end || value < least || value > most)
        leave(std::string(option) + " wants a number from " + text(least) + " to " + text(most) + ", not '" + word + "'");
    return value;
}

static Failure read_failure(const char *word) {
    auto parts = split(word, ':');
    Failure failure;
    if (parts.size() != 3) leave(std::string("--fail wants CALL:N:ERRNO, not '") + word + "'");
    failure.call = call_number(parts[0]);
    failure.at = read_number("--fail", parts[1].c_str(), 1, LONG_MAX);
    failure.error = errno_of(parts[2]);
    if (!may_fail(failure.call)) leave("--fail: no call of a socket is named '" + parts[0] + "'");
    if (!failure.error) leave("--fail: no error is named '" + parts[2] + "'");
    return failure;
}

static std::string check_moment(const char *option, const std::string &word) {
    std::string number = word.compare(0, 5, "line:") == 0 ? word.substr(5) : word;
    bool is_number = !number.empty() && number.find_first_not_of("0123456789") == std::string::npos;
    if (word != "end" && word != "all" && !is_number) leave(std::string(option) + " wants a number of calls, line:N, end or all, not '" + word + "'");
    return word;
}

static std::string own_path() {
    char path[PATH_MAX];
    ssize_t n = readlink("/proc/self/exe", path, sizeof path);
    return n > 0 ? std::string(path, n) : "onlayer";
}
static std::string folder_of(const std::string &path) { return path.substr(0, path.rfind('/')); }

static void find_program(std::string &path, const std::string &own, const std::string &name, const char *variable) {
    const char *named = getenv(variable);
    if (path.empty()) path = named && *named ? named : folder_of(folder_of(own)) + "/crates/" + name + "/out/" + name;
}
static void must_be_there(const std::string &path, const std::string &name, const std::string &words, const std::string &variable) {
    if (!access(path.c_str(), X_OK)) return;
    throw Fault("there is no " + name + " at " + path + ": build it (`cd crates/" + name + " && rt run " + words + "< stdin`), or name one by the variable " + variable);
}

// uxrun is needed only where something is told of the whole run.
static void find_programs(Options &options) {
    bool tells = !options.holders.empty() || !options.audit.empty() || options.orders;
    find_program(options.uxserve, options.own_path, "uxserve", "UXSERVE");
    find_program(options.uxrun, options.own_path, "uxrun", "UXRUN");
    must_be_there(options.uxserve, "uxserve", "", "UXSERVE");
    if (tells) must_be_there(options.uxrun, "uxrun", "-- - ", "UXRUN");
}

enum { QLIMIT = 256, NOFILE, FAIL, ORDER, ORDERS, SCRIPT, HOLDERS, AUDIT, LOG, JSON, QUIET, VERBOSE, UXSERVE, UXRUN, HELPS, VERSION };

static const option LONG_OPTIONS[] = {
    {"qlimit", 1, nullptr, QLIMIT}, {"nofile", 1, nullptr, NOFILE}, {"fail", 1, nullptr, FAIL}, {"order", 1, nullptr, ORDER},
    {"orders", 1, nullptr, ORDERS}, {"script", 1, nullptr, SCRIPT}, {"holders", 1, nullptr, HOLDERS}, {"audit", 1, nullptr, AUDIT},
    {"log", 1, nullptr, LOG}, {"json", 0, nullptr, JSON}, {"quiet", 0, nullptr, QUIET}, {"verbose", 0, nullptr, VERBOSE}, {"uxserve", 1, nullptr, UXSERVE},
    {"uxrun", 1, nullptr, UXRUN}, {"help", 0, nullptr, HELPS}, {"version", 0, nullptr, VERSION}, {nullptr, 0, nullptr, 0}};

static void take_option(Options &options, int option) {
    switch (option) {
    case QLIMIT: options.queue_limit = read_number("--qlimit", optarg, 1, 1048576); break;
    case NOFILE: options.table_limit = read_number("--nofile", optarg, 1, 4096); break;
    case FAIL: options.failures.push_back(read_failure(optarg)); break;
    case ORDER: options.order = read_number("--order", optarg, 0, UINT_MAX); break;
    case ORDERS: options.orders = read_number("--orders", optarg, 1, 1000000); break;
    case SCRIPT: options.script = optarg; break;
    case HOLDERS: options.holders = check_moment("--holders", optarg); break;
    case AUDIT: options.audit = check_moment("--audit", optarg); break;
    case LOG: options.log = optarg; break;
    case JSON: options.json = true; break;
    case QUIET: options.quiet = true; break;
    case VERBOSE: options.verbose = true; break;
    case UXSERVE: options.uxserve = optarg; break;
    case UXRUN: options.uxrun = optarg; break;
    case HELPS: fputs(HELP, stdout); exit(fflush(stdout) ? 125 : 0);
    case VERSION: puts("onlayer 0.5.0"); exit(fflush(stdout) ? 125 : 0);
    }
}

Options read_options(int count, char **words) {
    Options options;
    options.own_path = own_path();
    opterr = 0;
    for (int option; (option = getopt_long(count, words, "+:", LONG_OPTIONS, nullptr)) != -1;) {
        if (option == '?') leave(std::string("unknown option '") + words[optind - 1] + "'");
        if (option == ':') leave(std::string("a value is missing behind '") + words[optind - 1] + "'");
        take_option(options, option);
    }
    if (optind >= count) leave("no command");
    options.command.assign(words + optind, words + count);
    options.command.push_back(nullptr);
    find_programs(options);
    return options;
}
