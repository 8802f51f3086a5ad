// Texts in C++, for files that are accepted: a file in memory, its words and numbers, and a text that is written in
// large pieces.
#pragma once
#include <cstdint>
#include <cstdlib>
#include <cstring>
#include <fcntl.h>
#include <string>
#include <string_view>
#include <sys/mman.h>
#include <sys/stat.h>
#include <unistd.h>
#include <vector>

// Memory in large pages, whose items are not set before they are written.
template <class T> struct Pages {
    using value_type = T;
    static constexpr size_t LARGE = 2 << 20;

    Pages() = default;
    template <class U> Pages(const Pages<U> &) {}

    T *allocate(size_t count) {
        size_t bytes = count * sizeof(T) + 256; // so that a block of 64 numbers may be read at the end
        const size_t unit = bytes < 2 * LARGE ? 64 : LARGE;
        bytes = (bytes + unit - 1) / unit * unit;
        void *at = std::aligned_alloc(unit, bytes);
        if (!at) std::abort();
        if (unit == LARGE) madvise(at, bytes, MADV_HUGEPAGE);
        return static_cast<T *>(at);
    }
    void deallocate(T *at, size_t) { std::free(at); }
    template <class U> void construct(U *at) { ::new (static_cast<void *>(at)) U; }
    template <class U, class... A> void construct(U *at, A &&...a) {
        ::new (static_cast<void *>(at)) U(std::forward<A>(a)...);
    }
    template <class U> bool operator==(const Pages<U> &) const { return true; }
    template <class U> bool operator!=(const Pages<U> &) const { return false; }
};
template <class T> using List = std::vector<T, Pages<T>>;

// A file with a byte 0 behind its last one.
struct File {
    const char *text = "";
    size_t size = 0;
    bool mapped = false;

    explicit File(const char *name) {
        const int file = open(name, O_RDONLY);
        struct stat about;
        if (file < 0 || fstat(file, &about)) std::exit(4);
        size = size_t(about.st_size);
        mapped = size % 4096 != 0; // then the rest of the last page is 0
        if (mapped) {
            text = static_cast<const char *>(mmap(nullptr, size, PROT_READ, MAP_PRIVATE | MAP_POPULATE, file, 0));
            if (text == MAP_FAILED) std::exit(4);
        } else {
            char *all = static_cast<char *>(std::malloc(size + 1));
            for (size_t at = 0; at < size;) {
                const ssize_t got = read(file, all + at, size - at);
                if (got <= 0) std::exit(4);
                at += size_t(got);
            }
            all[size] = 0;
            text = all;
        }
        close(file);
    }
    ~File() {
        if (mapped) munmap(const_cast<char *>(text), size);
    }
    File(const File &) = delete;
};

struct Words {
    const char *at;

    static bool blank(char c) { return c == ' ' || (c >= '\t' && c <= '\r'); }

    uint32_t count() {
        while (blank(*at)) at++;
        uint32_t value = 0;
        for (unsigned d; (d = unsigned(*at) - '0') < 10; at++) value = 10 * value + d;
        return value;
    }
    int32_t whole() {
        while (blank(*at)) at++;
        const bool minus = *at == '-';
        at += minus;
        const int32_t value = int32_t(count());
        return minus ? -value : value;
    }
    std::string_view word() {
        while (blank(*at)) at++;
        const char *from = at;
        while (*at && !blank(*at)) at++;
        return {from, size_t(at - from)};
    }
    void line() {
        while (*at && *at != '\n') at++;
        at += *at == '\n';
    }
    void to(const char *name) {
        at = std::strstr(at, name);
        if (!at) std::exit(7);
        at += std::strlen(name);
    }
};

// The numbers from 00 to 99.
static const struct Two {
    char text[200];
    Two() {
        for (int n = 0; n < 100; n++) text[2 * n] = char('0' + n / 10), text[2 * n + 1] = char('0' + n % 10);
    }
} TWO;

struct Out {
    int file;
    size_t used = 0;
    std::vector<char> bytes = std::vector<char>(1 << 18);

    explicit Out(int file) : file(file) {}
    ~Out() { flush(); }

    void flush() {
        for (size_t at = 0; at < used;) {
            const ssize_t put = write(file, bytes.data() + at, used - at);
            if (put <= 0) std::exit(5);
            at += size_t(put);
        }
        used = 0;
    }
    void room(size_t more) {
        if (used + more > bytes.size()) flush();
    }
    void text(std::string_view s) {
        room(s.size());
        std::memcpy(bytes.data() + used, s.data(), s.size());
        used += s.size();
    }
    void number(int64_t value, char after) {
        room(24);
        char *to = bytes.data() + used;
        if (value < 0) *to++ = '-';
        uint32_t rest = uint32_t(value < 0 ? -value : value);
        char digits[10], *from = digits + 10;
        for (; rest >= 100; rest /= 100) std::memcpy(from -= 2, TWO.text + 2 * (rest % 100), 2);
        std::memcpy(from -= 2, TWO.text + 2 * rest, 2);
        from += rest < 10;
        while (from < digits + 10) *to++ = *from++;
        *to++ = after;
        used = size_t(to - bytes.data());
    }
    // The numbers of a list in one line, and nothing of an empty list.
    void line(const std::vector<uint32_t> &list) {
        for (size_t k = 0; k < list.size(); k++) number(list[k], k + 1 == list.size() ? '\n' : ' ');
    }
    void list(const std::vector<uint32_t> &list) {
        text("count ");
        number(int64_t(list.size()), '\n');
        line(list);
    }
};
