// bench for tests of array libraries, in C++17: answers lines, and compares the array of a name with one of another library.
//     bench::Session session;
//     session.run("a = arange <i4 0 6 1"), session.run("upd a[1:] add a[:-1]");
//     std::string found = session.difference("a", std::array{6}, mine);   // empty if shape and items are the same
#ifndef BENCH_TEST_HPP
#define BENCH_TEST_HPP

#include "bench.h"
#include <algorithm>
#include <new>
#include <stdexcept>
#include <string>
#include <string_view>
#include <utility>
#include <vector>

namespace bench {

// A line or a call that was refused: `what` is the reply, such as "no E06 unknown name".
struct Refused : std::runtime_error { using std::runtime_error::runtime_error; };

class Session {
    bench_handle handle{};
    // The result of a call that copies to a container, which is made larger until there is room.
    template <class Found, class Call> Found copied(Call call, std::size_t room = 64) {
        for (Found found(room, {});; found.resize(room))
            if (const int status = call(&found[0], found.size(), &room); status != BENCH_NO_ROOM) return check(status), found.resize(room), found;
    }
    void check(int status) {
        if (status == BENCH_REFUSED) throw Refused(reply());
        if (status == BENCH_NO_MEMORY) throw std::bad_alloc();
        if (status > BENCH_NOTHING) throw std::logic_error("bench: status " + std::to_string(status));
    }
public:
    explicit Session(std::size_t undo = 16) { check(bench_open(undo, &handle)); }
    ~Session() { bench_close(&handle); }
    Session(Session &&other) noexcept : handle(std::exchange(other.handle, {})) {}
    Session &operator=(Session &&other) noexcept { return std::swap(handle, other.handle), *this; }

    std::string reply() { return copied<std::string>([&](auto... to) { return bench_reply(&handle, to...); }); }
    std::string run(std::string_view line) { return check(bench_answer(&handle, line.data(), line.size())), reply(); }
    bench_array info(std::string_view name) { bench_array known{}; return check(bench_info(&handle, name.data(), name.size(), &known)), known; }
    std::vector<std::size_t> shape(std::string_view name) { const auto known = info(name); return {known.shape, known.shape + known.axes}; }
    std::string type(std::string_view name) { return copied<std::string>([&](auto... to) { return bench_type(&handle, name.data(), name.size(), to...); }); }
    std::vector<std::int64_t> items(std::string_view name) {
        return copied<std::vector<std::int64_t>>([&](auto... to) { return bench_items(&handle, name.data(), name.size(), to...); });
    }
    // Binds a name to a new array with these items, in C order.
    template <class Item> void put(std::string_view name, std::string_view type, const std::vector<std::size_t> &shape, const std::vector<Item> &items) {
        check(bench_put_array(&handle, name.data(), name.size(), type.data(), type.size(), shape.data(), shape.size(), items.data(), items.size() * sizeof(Item)));
    }
    // In what another array differs from that of a name; nothing if it does not. `other` gives its items in C order.
    template <class Shape, class Items> std::string difference(std::string_view name, const Shape &shape, const Items &other) {
        const auto right = items(name);
        const auto lengths = this->shape(name);
        if (!std::equal(lengths.begin(), lengths.end(), std::begin(shape), std::end(shape), [](auto a, auto b) { return a == std::size_t(b); })) return "differs in shape";
        std::size_t at = 0;
        for (const auto &item : other)
            if (at == right.size() || std::int64_t(item) != right[at++]) return "differs at item " + std::to_string(at - 1);
        return at == right.size() ? "" : "has too few items";
    }
};

}

#endif
