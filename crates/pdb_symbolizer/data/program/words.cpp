#include <algorithm>
#include <iostream>
#include <map>
#include <regex>
#include <sstream>
#include <string>
#include <vector>

struct Entry {
    std::string name;
    std::vector<int> places;
    virtual ~Entry() = default;
    virtual std::string text() const;
};

struct Loud : Entry {
    std::string text() const override;
};

std::string Entry::text() const {
    std::ostringstream out;
    out << name << ':';
    for (int place : places)
        out << ' ' << place;
    return out.str();
}

std::string Loud::text() const {
    std::string text = Entry::text();
    std::transform(text.begin(), text.end(), text.begin(), [](unsigned char c) { return char(std::toupper(c)); });
    return text;
}

using Index = std::map<std::string, Entry>;

static Index index_of(std::istream &in, const std::regex &word) {
    Index index;
    std::string line;
    for (int number = 1; std::getline(in, line); ++number) {
        for (std::sregex_iterator at(line.begin(), line.end(), word), end; at != end; ++at) {
            Entry &entry = index[at->str()];
            entry.name = at->str();
            entry.places.push_back(number);
        }
    }
    return index;
}

int main(int count, char **words) {
    try {
        std::regex word(count > 1 ? words[1] : "[A-Za-z]+(-[a-z]+)*");
        Index index = index_of(std::cin, word);
        std::vector<const Entry *> entries;
        for (auto &pair : index)
            entries.push_back(&pair.second);
        std::stable_sort(entries.begin(), entries.end(), [](const Entry *a, const Entry *b) {
            return a->places.size() > b->places.size();
        });
        for (const Entry *entry : entries)
            std::cout << entry->text() << '\n';
        Loud last;
        last.name = std::to_string(entries.size());
        std::cout << last.text() << std::endl;
    } catch (const std::regex_error &error) {
        std::cerr << error.what() << std::endl;
        return 1;
    }
    return 0;
}
