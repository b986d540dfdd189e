// Answers the script of examples/ in a session of two extensions and a filter list, as `dnr serve` does:
//
//     c++ -std=c++17 -Iout -Iexamples/c examples/c/session.cpp out/libdnr.a -o session
//     cd examples && ../session
#include "dnr.hpp"
#include <fstream>
#include <iostream>
#include <iterator>

static std::string read_file(const std::string &name) {
    std::ifstream file(name, std::ios::binary);
    if (!file) throw std::runtime_error("there is no " + name);
    return {std::istreambuf_iterator<char>(file), {}};
}

int main() try {
    const std::vector<std::string> names = {"suffixes.dat", "list.txt", "shop/manifest.json", "shop/rules/shopping.json", "shop/rules/strict.json", "privacy/manifest.json", "privacy/rules.json"};
    std::vector<std::string> contents;
    for (auto &name : names) contents.push_back(read_file(name));
    std::vector<dnr::file> files;
    for (size_t i = 0; i < names.size(); i++) files.push_back({names[i], contents[i]});

    dnr::engine engine({"serve", "--psl", "suffixes.dat", "--ext", "shop", "--ext", "privacy", "--list", "easy=list.txt", "script"}, files);
    std::ifstream script("session.jsonl", std::ios::binary);
    uint32_t number = 0;
    for (std::string line; std::getline(script, line);) std::cout << engine.ask(line, ++number);
} catch (const std::exception &fault) {
    std::cerr << fault.what() << '\n';
    return 1;
}
