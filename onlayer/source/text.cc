#include "text.h"
#include <errno.h>
#include <stdlib.h>
#include <string.h>
#include <sys/syscall.h>
#include <map>

static const int LAST_ERRNO = 133;             // EHWPOISON

std::vector<std::string> split(const std::string &text, char by) {
    std::vector<std::string> parts;
    size_t from = 0;
    for (;;) {
        size_t to = text.find(by, from);
        parts.push_back(text.substr(from, to == std::string::npos ? to : to - from));
        if (to == std::string::npos) return parts;
        from = to + 1;
    }
}

std::string hex(const std::string &bytes) {
    static const char digits[] = "0123456789abcdef";
    if (bytes.empty()) return "-";
    std::string out(2 * bytes.size(), 0);
    for (size_t i = 0; i < bytes.size(); i++) {
        out[2 * i] = digits[(unsigned char)bytes[i] >> 4];
        out[2 * i + 1] = digits[bytes[i] & 15];
    }
    return out;
}

std::string unhex(std::string_view digits) {
    if (digits == "-") return "";
    auto value = [](char digit) { return digit <= '9' ? digit - '0' : digit - 'a' + 10; };
    std::string out(digits.size() / 2, 0);
    for (size_t i = 0; i < out.size(); i++) out[i] = (char)(value(digits[2 * i]) << 4 | value(digits[2 * i + 1]));
    return out;
}

std::string name_word(const std::string &bytes) {
    std::string word;
    for (unsigned char byte : bytes) {
        if (byte >= 0x21 && byte <= 0x7e && byte != '%') word += (char)byte;
        else word += "%" + hex(std::string(1, (char)byte));
    }
    return word;
}

std::string name_bytes(const std::string &word) {
    std::string bytes;
    for (size_t i = 0; i < word.size(); i++) {
        if (word[i] != '%') bytes += word[i];
        else bytes += unhex(word.substr(i + 1, 2)), i += 2;
    }
    return bytes;
}

// By the C library's names, so that none is missing.
int errno_of(const std::string &name) {
    for (int error = 1; error <= LAST_ERRNO; error++)
        if (const char *known = strerrorname_np(error); known && name == known) return error;
    return 0;
}
std::string errno_name(int error) {
    const char *name = strerrorname_np(error);
    return name ? name : "error " + text(error);
}

static const std::map<std::string, int> &calls() {
    static const std::map<std::string, int> all = {
#define C(name) {#name, SYS_##name}
        C(socket), C(socketpair), C(bind), C(listen), C(accept), C(accept4), C(connect), C(shutdown), C(getsockname), C(getpeername),
        C(getsockopt), C(setsockopt), C(sendto), C(sendmsg), C(sendmmsg), C(recvfrom), C(recvmsg), C(recvmmsg), C(read), C(write),
        C(readv), C(writev), C(preadv2), C(pwritev2), C(sendfile), C(splice), C(close), C(close_range), C(dup), C(dup2), C(dup3),
        C(fcntl), C(ioctl), C(setuid), C(setgid), C(setreuid), C(setregid), C(setresuid), C(setresgid), C(setgroups), C(pidfd_getfd),
        C(io_uring_setup), C(io_submit), C(seccomp), C(ptrace), C(prctl), C(unshare)};
#undef C
    return all;
}
int call_number(const std::string &name) {
    auto found = calls().find(name);
    return found == calls().end() ? -1 : found->second;
}
std::string call_name(int number) {
    for (auto &[name, call] : calls())
        if (call == number) return name;
    return "call " + text(number);
}
