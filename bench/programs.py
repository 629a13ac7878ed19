#!/usr/bin/env python3
"""Builds programs of several sizes for x86_64, each with its PDB file, from C++ sources that it writes.

Usage: programs.py FOLDER COUNT..

For each COUNT the folder gets sources-COUNT.exe and sources-COUNT.pdb, built from COUNT sources. Each source has its
own instances of containers and algorithms of the standard library. So types, names, lines and inlined bodies of the PDB
file all grow with the number of sources. The programs have no DWARF sections, because llvm-symbolizer would read those
instead of the PDB file.

The script needs the Debian packages clang-22, lld-22 and g++-mingw-w64-x86-64-win32.
"""
import os
import subprocess
import sys

CLASSES = 10
FLAGS = ["clang++-22", "--target=x86_64-w64-windows-gnu", "-O1", "-g", "-gcodeview", "-w"]

HEADER = """\
#pragma once
#include <algorithm>
#include <functional>
#include <map>
#include <memory>
#include <numeric>
#include <set>
#include <string>
#include <tuple>
#include <unordered_map>
#include <variant>
#include <vector>

template <int number> struct Item {
    std::string name;
    std::vector<int> sides;
    std::variant<int, std::string, std::shared_ptr<Item>> next;

    int key() const { return std::accumulate(sides.begin(), sides.end(), number); }
};

template <int number> struct Shelf {
    std::map<std::string, Item<number>> by_name;
    std::unordered_map<int, std::shared_ptr<Item<number>>> by_key;
    std::multiset<std::tuple<int, std::string, Item<number> *>> seen;
    std::vector<std::function<int(const Item<number> &)>> rules;

    void put(Item<number> item) {
        auto &place = by_name[item.name];
        place = std::move(item);
        by_key.emplace(place.key(), std::make_shared<Item<number>>(place));
        seen.emplace(place.key(), place.name, &place);
    }

    int total() const {
        int sum = 0;
        for (const auto &[name, item] : by_name)
            for (const auto &rule : rules)
                sum += rule(item) + int(name.size());
        return sum;
    }

    std::vector<Item<number>> sorted() const {
        std::vector<Item<number>> items;
        for (const auto &[key, item] : by_key)
            items.push_back(*item);
        std::stable_sort(items.begin(), items.end(),
                         [](const auto &left, const auto &right) { return left.key() < right.key(); });
        return items;
    }
};

template <int number> int fill(int size) {
    Shelf<number> shelf;
    shelf.rules.push_back([size](const Item<number> &item) { return item.key() * size; });
    for (int place = 0; place < size; place++)
        shelf.put({std::to_string(place), std::vector<int>(place, number), place});
    const auto items = shelf.sorted();
    return shelf.total() + (items.empty() ? 0 : items.front().key());
}
"""


def source(number):
    """Returns the text of one source, which calls its own instances of the classes."""
    calls = " + ".join(f"fill<{number * CLASSES + one}>(size)" for one in range(CLASSES))
    return f'#include "shelf.h"\n\nint part{number}(int size) {{\n    return {calls};\n}}\n'


def entry(count):
    """Returns the text of the source with `main`, which calls all others."""
    parts = "".join(f"int part{number}(int size);\n" for number in range(count))
    calls = "".join(f"    sum += part{number}(count);\n" for number in range(count))
    return f"{parts}\nint main(int count, char **) {{\n    int sum = 0;\n{calls}    return sum;\n}}\n"


def write(path, text):
    with open(path, "w") as out:
        out.write(text)


def compiled(name):
    """Returns the name of a source's object file in this folder. It compiles the source only if that file is
    missing."""
    if not os.path.exists(f"{name}.o"):
        subprocess.run([*FLAGS, "-c", f"{name}.cpp", "-o", f"{name}.o"], check=True)
    return f"{name}.o"


def build(count):
    """Builds the program of COUNT sources in this folder."""
    names = [f"part{number}" for number in range(count)]
    for number, name in enumerate(names):
        write(f"{name}.cpp", source(number))
    program = f"sources-{count}"
    write(f"{program}.cpp", entry(count))
    objects = [compiled(name) for name in [*names, program]]
    linked = ["-fuse-ld=lld-22", "-static", f"-Wl,-s,--pdb={program}.pdb", "-o", f"{program}.exe"]
    subprocess.run([*FLAGS, *objects, *linked], check=True)


def main(folder, counts):
    os.makedirs(folder, exist_ok=True)
    os.chdir(folder)
    write("shelf.h", HEADER)
    for count in counts:
        build(count)


if __name__ == "__main__":
    if len(sys.argv) < 3:
        sys.exit(__doc__)
    main(sys.argv[1], [int(word) for word in sys.argv[2:]])
