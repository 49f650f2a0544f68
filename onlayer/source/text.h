// Texts: the words of a line, bytes as digits, names as a script spells them.
#pragma once
#include <stdexcept>
#include <string>
#include <string_view>
#include <vector>

// A failure of onlayer's own, which ends it.
struct Fault : std::runtime_error {
    using std::runtime_error::runtime_error;
};

std::vector<std::string> split(const std::string &text, char by = ' ');
inline std::string text(long number) { return std::to_string(number); }

std::string hex(const std::string &bytes);
std::string unhex(std::string_view digits);

// The NAME of a script, in which `%` and two digits stand for a byte.
std::string name_word(const std::string &bytes);
std::string name_bytes(const std::string &word);

int errno_of(const std::string &name);         // 0 where no error has this name
std::string errno_name(int error);

int call_number(const std::string &name);      // -1 where no call that onlayer is told of has this name
std::string call_name(int number);
