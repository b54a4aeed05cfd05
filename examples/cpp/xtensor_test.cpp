// A test of xtensor beside bench: the same operation in both, and what differs. docs/C.md has the class that compares them.
//     g++ -std=c++17 -Ilibrary examples/cpp/xtensor_test.cpp dist/libbench.a -o /tmp/xtensor_test && /tmp/xtensor_test
#include <bench_test.hpp>
#include <iostream>
#include <xtensor/xadapt.hpp>
#include <xtensor/xarray.hpp>
#include <xtensor/xsort.hpp>
#include <xtensor/xstrided_view.hpp>
#include <xtensor/xview.hpp>

using Items = xt::xarray<int>;
static int differing = 0;

// Runs a line of bench, and compares `a` with what xtensor made of the same.
static void compare(bench::Session &session, const std::string &line, const Items &made)
{
    session.run(line);
    const auto found = session.difference("a", made.shape(), made);
    if (!found.empty()) differing++, std::cout << line << ": xtensor " << found << '\n';
}

int main()
{
    bench::Session session;
    const auto begin = [&](std::vector<int> items) {
        session.put("b", "<i4", {items.size()}, items);
        session.run("a = copy b C");
        return Items(xt::adapt(items, std::vector<std::size_t>{items.size()}));
    };
    Items a = begin({7, 1, 5, 3});
    auto all = xt::strided_view(a, {xt::all()}), one = xt::strided_view(a, {xt::range(0, 1)}), back = xt::strided_view(a, {xt::range(3, 0, -1)});
    xt::view(a, xt::range(1, 4)) = xt::view(a, xt::range(0, 3)) + 0;
    compare(session, "set a[1:4] = a[0:3]", a);
    back += 1;
    compare(session, "upd a[3:0:-1] add 1", a);
    all = one;
    compare(session, "set a[:] = a[0:1]", a);
    a = begin({0, 1, 5});
    compare(session, "a = argmax b 0 keep", Items({int(xt::argmax(a, 0)())}));
    std::cout << differing << " of 4 differ\n";
    return differing != 0;
}
