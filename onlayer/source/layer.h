// The layer as a program: `uxserve`, lines out and blocks of lines back. The calls that it makes are kept as a script.
#pragma once
#include <stdio.h>
#include <stdlib.h>
#include <deque>
#include <functional>
#include <map>
#include <memory>
#include <optional>
#include <string>
#include <string_view>
#include <vector>
#include "kernel.h"
#include "text.h"

enum Condition : unsigned { IN = 1, OUT = 2, RDHUP = 4, HUP = 8, ERR = 16 };

struct Told {                                  // what the layer tells of a description
    unsigned conditions = 0;
    long bytes = 0, messages = 0;              // unread
    bool is_gone = false;
};

struct Lead {                                  // a number of the layer, and the description that it leads to
    int number, description;
};

struct Reply {
    std::string text;                          // behind "= ", without " closed .."
    int error = 0;
    std::vector<Lead> leads;
    bool connects = false;
    int made = -1;                             // of a connect: the description of the server's end
    bool lets_go_on = false;                   // further calls were made behind it

    static Reply of_error(int error) { return {{}, error, {}}; }
    bool ok() const { return !error; }
    std::string_view word(size_t at) const;    // `-` where there is none
    long number(size_t at) const { return strtol(word(at).data(), nullptr, 10); }
    int description() const { return leads.empty() ? -1 : leads.front().description; }
    int description_of(int number) const;
};

struct Answer {                                // of a call that was pending
    unsigned number;
    Reply reply;
};

// Who refers to a description, as the layer tells it when asked.
struct Held {
    int peer = -1;                             // the description that it is connected to, or associated with
    std::vector<int> processes;                // with a number of it
};

// A line that the layer finds at fault, and that has changed nothing.
struct LineRefused : Fault {
    using Fault::Fault;
};

class Layer {
    File to, from, complaints;
    std::string unread;                        // of what the layer has written
    size_t read_to = 0;
    std::vector<char> room;                    // for one read
    std::string unsent;                        // lines that go out with the next one
    unsigned unsent_blocks = 0;
    std::unique_ptr<FILE, int (*)(FILE *)> script{nullptr, fclose};
    std::map<unsigned, std::string> pended;    // lines of pending calls
    unsigned long made = 0;
    int next_description = 0;

    struct Block {
        std::vector<Answer> answers;           // of all that were made, the asked one first
        std::vector<bool> was_pending;
        std::vector<std::string> texts;
        std::string fault;
        std::vector<int> newcomers;
    };

    void launch(const std::string &program);
    void write_all(const std::string &lines);
    void send(const std::string &line);
    void fill();
    [[noreturn]] void fail();
    std::string_view read_line();
    Block read_block();
    void read_answer_line(Block &block, std::string_view line);
    void read_changes(Block &block, std::string_view line);
    static void name_server_ends(Block &block);
    void keep_lines(const Block &block, const std::string &asked);
    std::optional<Reply> take_answers(Block block, const std::string &asked);

public:
    Layer(const std::string &program, const std::string &script_path, const std::vector<std::string> &header);
    Reply make(int process, const std::string &words);
    std::vector<Reply> make_all(int process, const std::vector<std::string> &calls);    // in one trip
    std::optional<Reply> pend(unsigned number, int process, const std::string &words);
    void cancel(unsigned number);
    void order(unsigned long seed);
    std::map<int, Held> holders();
    void note(const std::string &comment) { fprintf(script.get(), "# %s\n", comment.c_str()); }
    void flush() { fflush(script.get()); }
    unsigned long calls() const { return made; }

    std::deque<Answer> answered;               // calls that were pending, in the order in which they were made
    std::function<void(int description, const Told &told)> on_told;
};
