// The command line.
#pragma once
#include <optional>
#include <string>
#include <vector>

struct Failure {                               // the Nth such call of a socket fails
    int call = 0;
    unsigned long at = 0, seen = 0;
    int error = 0;
};

struct Options {
    std::string uxserve, uxrun, script, log, holders, audit, own_path;
    int queue_limit = 0, table_limit = 4096, orders = 0;
    std::optional<unsigned> order;
    std::vector<Failure> failures;
    bool json = false, quiet = false, verbose = false;
    std::vector<char *> command;
};

// Ends the program where the command line isn't understood, or asks for help.
Options read_options(int count, char **words);
