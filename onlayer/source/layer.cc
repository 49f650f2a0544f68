#include "layer.h"
#include <errno.h>
#include <fcntl.h>
#include <signal.h>
#include <string.h>
#include <unistd.h>
#include <algorithm>
#include "text.h"

static const int PIPE_ROOM = 1 << 20;          // a record of 65,536 bytes as digits, and more
static const size_t READ_ROOM = 65536;         // bytes a read

// ---- replies

std::string_view Reply::word(size_t at) const {
    size_t from = 0;
    for (; at > 0; at--) {
        size_t blank = text.find(' ', from);
        if (blank == std::string::npos) return "-";
        from = blank + 1;
    }
    return std::string_view(text).substr(from, std::min(text.find(' ', from), text.size()) - from);
}

int Reply::description_of(int number) const {
    for (const Lead &lead : leads)
        if (lead.number == number) return lead.description;
    return -1;
}

// ---- the program

Layer::Layer(const std::string &program, const std::string &script_path, const std::vector<std::string> &header) : room(READ_ROOM) {
    script.reset(fopen(script_path.c_str(), "we"));
    if (!script) throw Fault("can't write " + script_path + ": " + strerror(errno));
    launch(program);
    for (auto &line : header) unsent += line + "\n";
    fwrite(unsent.data(), 1, unsent.size(), script.get());
}

void Layer::launch(const std::string &program) {
    int in[2], out[2], bad[2];
    if (pipe2(in, O_CLOEXEC) || pipe2(out, O_CLOEXEC) || pipe2(bad, O_CLOEXEC)) throw Fault("no pipe to the layer");
    fcntl(in[1], F_SETPIPE_SZ, PIPE_ROOM);
    fcntl(out[1], F_SETPIPE_SZ, PIPE_ROOM);
    if (!fork()) {
        dup2(in[0], 0), dup2(out[1], 1), dup2(bad[1], 2);
        setpgid(0, 0);                         // a terminal's signals are for the program
        sigset_t none;
        sigemptyset(&none);
        sigprocmask(SIG_SETMASK, &none, nullptr);
        execl(program.c_str(), program.c_str(), nullptr);
        _exit(127);
    }
    close(in[0]), close(out[1]), close(bad[1]);
    to.reset(in[1]), from.reset(out[0]), complaints.reset(bad[0]);
}

void Layer::write_all(const std::string &lines) {
    for (size_t at = 0; at < lines.size();) {
        ssize_t n = write(to.get(), lines.data() + at, lines.size() - at);
        if (n < 0 && errno != EINTR) fail();
        if (n > 0) at += n;
    }
}

// With the lines that waited for company; the blocks of those are read here.
void Layer::send(const std::string &line) {
    unsent += line;
    write_all(unsent);
    unsent.clear();
    for (unsigned blocks = std::exchange(unsent_blocks, 0); blocks > 0; blocks--) take_answers(read_block(), "");
}

// The layer has ended: what it complains of.
void Layer::fail() {
    char words[4096];
    ssize_t n = read(complaints.get(), words, sizeof words);
    flush();
    throw Fault(n > 0 ? "the layer says: " + std::string(words, n) : std::string("the layer has ended"));
}

void Layer::fill() {
    unread.erase(0, std::exchange(read_to, 0));
    ssize_t n;
    do n = read(from.get(), room.data(), room.size());
    while (n < 0 && errno == EINTR);
    if (n <= 0) fail();
    unread.append(room.data(), n);
}

// Valid until the next.
std::string_view Layer::read_line() {
    for (size_t looked = read_to;;) {
        size_t end = unread.find('\n', looked);
        if (end != std::string::npos) {
            size_t from = std::exchange(read_to, end + 1);
            return std::string_view(unread).substr(from, end - from);
        }
        looked = unread.size() - read_to;
        fill();
    }
}

// ---- blocks

static bool begins_with(std::string_view line, std::string_view words) { return line.compare(0, words.size(), words) == 0; }

static Reply reply_of(std::string_view line) {
    size_t at = line.find(" = ");
    if (at == std::string_view::npos) throw Fault("not a line of a trace: " + std::string(line));
    Reply reply;
    reply.text = line.substr(at + 3);
    size_t closed = reply.text.rfind(" closed ");
    if (closed != std::string::npos) reply.text.erase(closed);
    bool is_error = begins_with(reply.text, "err ");
    if (is_error) reply.error = errno_of(reply.text.substr(4));
    if (is_error && !reply.error) throw Fault("not an error that is known: " + std::string(line));
    reply.connects = reply.ok() && at > 8 && line.substr(at - 8, 8) == " connect";
    return reply;
}

void Layer::read_answer_line(Block &block, std::string_view line) {
    if (begins_with(line, "answered ")) {
        block.was_pending.push_back(true);
        block.answers.push_back({(unsigned)strtoul(line.data() + 9, nullptr, 10), {}});
    } else if (begins_with(line, "leads ")) {
        size_t number = line.find(' ', 6) + 1, description = line.find(' ', number) + 1;
        block.answers.back().reply.leads.push_back({atoi(line.data() + number), atoi(line.data() + description)});
    } else {
        bool is_numbered = block.answers.size() && block.was_pending.back() && block.answers.back().reply.text.empty();
        if (!is_numbered) block.was_pending.push_back(false), block.answers.push_back({0, {}});
        block.answers.back().reply = reply_of(line);
        made++;
    }
}

static unsigned conditions_of(std::string_view names) {
    static const std::pair<std::string_view, unsigned> known[] = {{"IN", IN}, {"OUT", OUT}, {"RDHUP", RDHUP}, {"HUP", HUP}, {"ERR", ERR}};
    unsigned all = 0;
    while (!names.empty()) {
        std::string_view name = names.substr(0, names.find('|'));
        for (auto &[word, condition] : known)
            if (name == word) all |= condition;
        names.remove_prefix(std::min(names.size(), name.size() + 1));
    }
    return all;
}

// Of `. D=CONDITIONS/BYTES/MESSAGES ..`.
void Layer::read_changes(Block &block, std::string_view line) {
    for (size_t at = 2; at < line.size();) {
        std::string_view change = line.substr(at, line.find(' ', at) - at);
        size_t equal = change.find('='), slash = change.find('/', equal), second = change.find('/', slash + 1);
        int description = atoi(change.data());
        std::string_view names = change.substr(equal + 1, slash - equal - 1);
        Told told = {conditions_of(names), atol(change.data() + slash + 1), atol(change.data() + second + 1), names == "NVAL"};
        if (description >= next_description) block.newcomers.push_back(description), next_description = description + 1;
        on_told(description, told);
        at += change.size() + 1;
    }
}

Layer::Block Layer::read_block() {
    Block block;
    for (;;) {
        std::string_view line = read_line();
        if (line.empty()) throw Fault("the layer answers with an empty line");
        if (line[0] == '.') {
            read_changes(block, line);
            name_server_ends(block);
            if (!block.fault.empty()) throw LineRefused("the layer says: " + block.fault);
            return block;
        }
        if (line[0] == '!') block.fault = line.substr(2);
        else if (line[0] == ' ') block.texts.emplace_back(line.substr(2));
        else read_answer_line(block, line);
    }
}

// A connect makes the server's end, to which no number leads yet: those of a block come in the order of its connects.
void Layer::name_server_ends(Block &block) {
    std::vector<int> &rest = block.newcomers;
    for (Answer &answer : block.answers) {
        if (answer.reply.text.compare(0, 9, "accepted ") == 0) continue;
        for (const Lead &lead : answer.reply.leads) rest.erase(std::remove(rest.begin(), rest.end(), lead.description), rest.end());
    }
    for (Answer &answer : block.answers)
        if (answer.reply.connects && !rest.empty()) answer.reply.made = rest.front(), rest.erase(rest.begin());
}

// The script has the calls in the order in which they were made.
void Layer::keep_lines(const Block &block, const std::string &asked) {
    for (size_t i = 0; i < block.answers.size(); i++) {
        std::string line = asked;
        if (block.was_pending[i])
            if (auto found = pended.extract(block.answers[i].number)) line = std::move(found.mapped());
        fwrite(line.data(), 1, line.size(), script.get());
    }
}

// The reply to what was asked, where it was made; those of pending calls wait to be fetched.
std::optional<Reply> Layer::take_answers(Block block, const std::string &asked) {
    keep_lines(block, asked);
    std::optional<Reply> own;
    for (size_t i = 0; i < block.answers.size(); i++) {
        Answer &answer = block.answers[i];
        answer.reply.lets_go_on = i + 1 < block.answers.size();
        if (block.was_pending[i]) answered.push_back(std::move(answer));
        else own = std::move(answer.reply);
    }
    return own;
}

// ---- what is asked

Reply Layer::make(int process, const std::string &words) {
    std::string line = text(process) + " " + words + "\n";
    send(line);
    std::optional<Reply> reply = take_answers(read_block(), line);
    if (!reply) throw Fault("the layer doesn't answer: " + line);
    return std::move(*reply);
}

std::vector<Reply> Layer::make_all(int process, const std::vector<std::string> &calls) {
    std::vector<std::string> lines;
    std::string all;
    std::vector<Reply> replies;
    for (auto &words : calls) lines.push_back(text(process) + " " + words + "\n"), all += lines.back();
    if (!calls.empty()) send(all);
    for (auto &line : lines) replies.push_back(take_answers(read_block(), line).value());
    return replies;
}

std::optional<Reply> Layer::pend(unsigned number, int process, const std::string &words) {
    std::string line = text(process) + " " + words + "\n";
    pended[number] = line;
    send("pend " + text(number) + " " + line);
    size_t before = answered.size();
    take_answers(read_block(), "");
    if (answered.size() == before || answered[before].number != number) return {};
    Reply reply = std::move(answered[before].reply);
    answered.erase(answered.begin() + before);
    return reply;
}

// It says nothing to wait for, so it goes out with the next line.
void Layer::cancel(unsigned number) {
    pended.erase(number);
    unsent += "cancel " + text(number) + "\n";
    unsent_blocks++;
}

void Layer::order(unsigned long seed) {
    unsent += "order " + text(seed) + "\n";
    unsent_blocks++;
}

// Of lines such as `description 2: 1 reference, stream socket a:worker, connected to 1` and `  held by number 1 of process 2`.
std::map<int, Held> Layer::holders() {
    std::map<int, Held> all;
    send("holders\n");
    Block block = read_block();
    int description = -1, number, process;
    for (auto &line : block.texts) {
        if (sscanf(line.c_str(), "description %d:", &description) == 1) {
            size_t connected = line.rfind(", connected to "), associated = line.rfind(", associated with ");
            if (connected != std::string::npos) all[description].peer = atoi(line.c_str() + connected + 15);
            else if (associated != std::string::npos) all[description].peer = atoi(line.c_str() + associated + 18);
        } else if (sscanf(line.c_str(), " held by number %d of process %d", &number, &process) == 2) {
            all[description].processes.push_back(process);
        }
    }
    return all;
}
