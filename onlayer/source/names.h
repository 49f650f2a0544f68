// The layer's names and the files that stand for paths among them.
#pragma once
#include <sys/types.h>
#include <map>
#include <string>
#include "kernel.h"

struct Description;

struct FileKey {                               // a file, told from a later one of the same number by its birth
    dev_t device = 0;
    ino_t node = 0;
    long born = 0, born_nanoseconds = 0;
    bool operator<(const FileKey &other) const;
    bool operator==(const FileKey &other) const { return !(*this < other) && !(other < *this); }
};

// How a path of the program is reached: its own root and working directory count.
File open_path(int task, const std::string &path);     // O_PATH; errno tells why not
bool has_own_root(int task);
File open_working_folder(int task);
File open_parent(int task, const std::string &path);
FileKey key_of(int file);
bool is_socket_file(int file);

class Names {
    struct Place {
        FileKey key;
        std::string path;
    };
    std::map<std::string, Description *> bound;        // null: its path is there, its socket gone
    std::map<std::string, std::string> spelled;        // the sun_path behind a word
    std::map<std::string, Place> places;
    std::map<FileKey, std::string> by_file;
    int aliases = 0;

public:
    bool has(const std::string &word) const { return bound.count(word); }
    Description *socket_of(const std::string &word) const;
    std::string word_of(const FileKey &key) const;     // empty where no name has this file
    std::string spelling(const std::string &word) const;
    bool is_still_there(const std::string &word) const;
    std::string alias() { return "p:~" + std::to_string(++aliases); }
    void bind(const std::string &word, Description *socket) { bound[word] = socket; }
    void spell(const std::string &word, const std::string &sun_path) { spelled[word] = sun_path; }
    void place(const std::string &word, int file);
    void forget(const std::string &word);
    void lose_socket(const std::string &word, Description *socket);
};
