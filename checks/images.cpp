// Builds, checks, explains and describes images through vezhnake.hpp, for checks/library. Prints what `eros` answers. If a description
// is refused, prints its explanation and the status.
// usage: PROGRAM DESCRIPTION
#include "vezhnake.hpp"

#include <fstream>
#include <iostream>
#include <iterator>

int main(int words, char **word) {
    if (words != 2) return 2;
    std::ifstream file(word[1], std::ios::binary);
    const std::string text{std::istreambuf_iterator<char>(file), {}};
    std::cout << vezhnake::explain(text) << '\n';
    try {
        auto image = vezhnake::build(text);
        std::cout << vezhnake::check(image).sectors << ' ' << vezhnake::explain(image) << '\n' << vezhnake::describe(image);
        image[0] ^= 1;
        std::cout << vezhnake::explain(image) << '\n';
        vezhnake::check(image);
    } catch (const vezhnake::status_error &error) {
        std::cout << error.status << '\n';
    }
}
