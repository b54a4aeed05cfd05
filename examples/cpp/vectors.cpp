// Runs the lines of the cases in vectors/ and compares what the names show in the end: vectors PROGRAM FILE.. (docs/VECTORS.md has the
// schema). Tables and files are left to `bench-tool judge`. To try another library, put what runs its lines in place of `run`.
#include <cstdio>
#include <filesystem>
#include <fstream>
#include <iostream>
#include <nlohmann/json.hpp>
#include <string>

using json = nlohmann::json;
using Text = std::string;
static const auto folder = std::filesystem::temp_directory_path() / ("vectors-" + std::to_string(std::hash<Text>{}(std::filesystem::current_path())));

// The replies to some lines.
static Text run(const Text &program, const Text &lines)
{
    const auto in = (folder / "script").string(), out = (folder / "replies").string();
    std::ofstream(in, std::ios::binary) << lines;
    (void)!std::system((program + " " + in + " >" + out).c_str());
    std::ifstream replies(out, std::ios::binary);
    return {std::istreambuf_iterator<char>(replies), {}};
}
// The numbers of a printed array, in order: True and False are 1 and 0.
static json items(const Text &printed)
{
    json found = json::array();
    for (size_t at = 0; at < printed.size();) {
        const size_t end = printed.find_first_of(" []\n", at);
        const Text word = printed.substr(at, end - at);
        if (!word.empty()) found.push_back(word == "True" || word == "False" ? json(word == "True") : json::parse(word));
        at = end == Text::npos ? printed.size() : end + 1;
    }
    for (auto &item : found) if (item.is_boolean()) item = int(item.get<bool>());
    return found;
}
// Whether a case gives what is wanted: each name is printed after its lines.
static bool passes(const Text &program, const json &test)
{
    Text lines;
    for (const auto &line : test["lines"]) lines += line.get<Text>() + "\n";
    const Text refused = test.contains("refuse") ? "no " + test["refuse"]["code"].get<Text>() : "ok";
    for (const auto &[name, want] : test["want"].items()) {
        const Text replies = run(program, lines + "print " + name + "\n");
        size_t at = 0;
        for (size_t k = 0; k + 1 < test["lines"].size(); k++) at = replies.find('\n', at) + 1;
        if (replies.compare(at, refused.size(), refused) != 0) return false;
        if (items(replies.substr(replies.find('\n', at) + 1)) != want["items"]) return false;
    }
    return true;
}

int main(int count, char **words)
{
    int tried = 0, wrong = 0;
    std::filesystem::create_directories(folder);
    for (int k = 2; k < count; k++) {
        std::ifstream in(words[k]);
        for (Text line; std::getline(in, line);) {
            const json test = json::parse(line);
            const auto &needs = test["needs"];
            const bool is_plain = std::none_of(needs.begin(), needs.end(), [](const json &word) { return word == "records" || word == "byte_strings"; });
            if (test.contains("rows") || test.contains("files") || !is_plain || test["steps"].back()["command"] == "save") continue;
            tried++;
            if (!passes(words[1], test)) wrong++, std::cout << test["id"].get<Text>() << " differs\n";
        }
    }
    std::filesystem::remove_all(folder);
    std::cout << tried << " cases, " << wrong << " differ\n";
    return wrong != 0;
}
