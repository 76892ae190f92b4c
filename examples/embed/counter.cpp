// Counts in a page of a persistent machine, and prints each count once it is saved. Kill it at any moment and start it again: it continues
// after the last count that it printed, or after the next one.
//
//     ./eros build examples/embed/counter.toml counter.image
//     tools/install /usr/local
//     g++ -std=c++17 examples/embed/counter.cpp $(pkg-config --cflags --libs vezhnake) -o counter
#include "vezhnake.hpp"

#include <cstdlib>
#include <iostream>

int main(int words, char **word) {
    char *end = nullptr;
    const uint64_t times = words == 3 ? std::strtoull(word[2], &end, 10) : 0;
    if (!end || end == word[2] || *end) {
        std::cerr << "usage: counter IMAGE TIMES\n";
        return 1;
    }
    try {
        auto machine = vezhnake::machine::open(word[1]);
        const uint64_t first = machine.page(16)[0];
        for (uint64_t count = first + 1; count <= first + times; count++) {
            machine.call(1, 6, {2, 0, count});
            machine.save();
            std::cout << count << std::endl;
        }
    } catch (const std::exception &error) {
        std::cerr << "counter: " << error.what() << "\n";
        return 1;
    }
}
