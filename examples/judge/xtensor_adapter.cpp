// xtensor, views and assignments of int, in the protocol of docs/JUDGE.md: a line of JSON for each question.
//     g++ -std=c++17 -O1 examples/judge/xtensor_adapter.cpp -o /tmp/xtensor && bench-tool judge --pipe /tmp/xtensor
#include <fstream>
#include <iostream>
#include <map>
#include <memory>
#include <nlohmann/json.hpp>
#include <xtensor/xarray.hpp>
#include <xtensor/xnpy.hpp>
#include <xtensor/xsort.hpp>
#include <xtensor/xstrided_view.hpp>
#include <xtensor/xview.hpp>

using json = nlohmann::json;
using Items = xt::xarray<int>;
struct Unsupported : std::runtime_error { using std::runtime_error::runtime_error; };

static xt::xstrided_slice_vector slices(const json &index, const Items &of)
{
    xt::xstrided_slice_vector made;
    std::size_t axis = 0;
    using namespace xt::placeholders;
    for (const auto &entry : index) {
        if (entry.is_number_integer()) {
            const long length = axis < of.dimension() ? long(of.shape(axis)) : 0, at = entry.get<long>();
            if (at < -length || at >= length) throw std::out_of_range("an integer");  // xtensor checks none
            made.push_back(int(at < 0 ? at + length : at)), axis++;
        } else if (entry.is_array()) {
            const auto start = entry[0], stop = entry[1];
            const int step = entry[2].is_null() ? 1 : entry[2].get<int>(), from = start.is_null() ? 0 : start.get<int>(), to = stop.is_null() ? 0 : stop.get<int>();
            if (start.is_null() && stop.is_null()) made.push_back(xt::range(_, _, step));
            else if (start.is_null()) made.push_back(xt::range(_, to, step));
            else if (stop.is_null()) made.push_back(xt::range(from, _, step));
            else made.push_back(xt::range(from, to, step));
            axis++;
        } else if (entry.is_null()) made.push_back(xt::newaxis());
        else if (entry == "...") made.push_back(xt::ellipsis()), axis = of.dimension();
        else throw Unsupported("an index array");
    }
    return made;
}
static json shown(const Items &a) { return {"<i4", std::vector<std::size_t>(a.shape().begin(), a.shape().end()), std::vector<int>(a.begin(), a.end())}; }

struct Run {
    std::map<std::string, std::unique_ptr<Items>> names;
    std::map<std::string, std::string> files;
    Items &of(const json &name) { return *names.at(name.get<std::string>()); }
    void bind(const json &step, Items made) { names[step["target"].get<std::string>()] = std::make_unique<Items>(std::move(made)); }
    void make(const json &step, std::vector<int> values) {
        if (step["type"] != "<i4") throw Unsupported("another type than <i4");
        const auto shape = step.contains("shape") ? step["shape"].get<std::vector<std::size_t>>() : std::vector<std::size_t>{values.size()};
        Items made = Items::from_shape(shape);
        std::copy(values.begin(), values.end(), made.begin());
        bind(step, made);
    }
    template <class View> void assign(View &&target, const json &value, bool adds) {
        if (!value.is_object()) { if (adds) target += value.get<int>(); else target = value.get<int>(); return; }
        Items &from = of(value["name"]);
        if (value["index"].is_null()) { if (adds) target += from; else target = from; return; }
        auto source = xt::strided_view(from, slices(value["index"], from));
        if (adds) target += source; else target = source;
    }
    void reduce(const json &step) {
        Items &a = of(step["source"]);
        const std::string word = step["operation"];
        if (step["axis"].is_null() || step["keep"].get<bool>() || step["axis"].get<int>() < 0 || step["axis"].get<std::size_t>() >= a.dimension()) throw Unsupported("such an axis");
        const std::size_t axis = step["axis"].get<std::size_t>();
        if (word == "argmax") bind(step, Items(xt::cast<int>(xt::argmax(a, axis))));
        else if (word == "argmin") bind(step, Items(xt::cast<int>(xt::argmin(a, axis))));
        else if (word == "max") bind(step, Items(xt::amax(a, {axis})));
        else if (word == "min") bind(step, Items(xt::amin(a, {axis})));
        else throw Unsupported(word);
    }
    void step(const json &s) {
        const std::string word = s["command"];
        if (word == "array") make(s, s["values"].get<std::vector<int>>());
        else if (word == "arange" || word == "full" || word == "zeros") throw Unsupported(word);
        else if (word == "select" && !s["index"].is_null()) { Items &a = of(s["source"]); bind(s, Items(xt::strided_view(a, slices(s["index"], a)))); }
        else if (word == "set" || word == "upd") {
            Items &a = of(s["target"]);
            if (word == "upd" && s["operation"] != "add") throw Unsupported("upd");
            assign(xt::strided_view(a, slices(s["index"], a)), s["value"], word == "upd");
        } else if (word == "transpose" && !s["axes"].is_null()) bind(s, Items(xt::transpose(of(s["source"]), s["axes"].get<std::vector<std::size_t>>())));
        else if (word == "reshape") { Items made = of(s["source"]); made.reshape(s["shape"].get<std::vector<int>>()); bind(s, made); }
        else if (word == "broadcast") bind(s, Items(xt::broadcast(of(s["source"]), s["shape"].get<std::vector<std::size_t>>())));
        else if (word == "reduce") reduce(s);
        else if (word == "load") { std::istringstream in(files.at(s["file"])); bind(s, Items(xt::load_npy<int>(in))); }
        else throw Unsupported(word);
    }
};

int main()
{
    std::cout << json({{"has", {"i4", "steps", "negative_steps", "new_axes", "size_0", "rank_0"}},
                       {"can", {"make", "items", "take", "put", "update", "transpose", "reshape", "broadcast", "reduce", "load"}}}) << std::endl;
    for (std::string line; std::getline(std::cin, line);) {
        const json question = json::parse(line);
        Run run;
        json answer = {{"id", question["id"]}, {"states", json::array()}};
        const json files = question.value("files", json::object());
        for (const auto &[name, hex] : files.items())
            for (std::size_t k = 0; k < hex.get<std::string>().size(); k += 2) run.files[name] += char(std::stoi(hex.get<std::string>().substr(k, 2), nullptr, 16));
        int number = 0;
        try {
            for (const auto &step : question["steps"]) {
                run.step(step), number++;
                if (number == int(question["steps"].size()) || question.value("each", false)) {
                    json state = json::object();
                    for (const auto &[name, array] : run.names) state[name] = shown(*array);
                    answer["states"].push_back(state);
                }
            }
        } catch (const Unsupported &fault) { answer["unsupported"] = {{"step", number}, {"text", fault.what()}}; }
        catch (const std::exception &fault) { answer["refused"] = {{"step", number}, {"text", fault.what()}}; }
        std::cout << answer << std::endl;
    }
}
