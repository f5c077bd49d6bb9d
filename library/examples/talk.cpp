// Opens a session of a system document, and answers the lines of the standard input.
//
//     c++ -std=c++17 talk.cpp -o talk $(pkg-config --cflags --libs roman)
//     ./talk SYSTEM [PART ..] <SESSION
#include <roman.hpp>

#include <fstream>
#include <iostream>
#include <iterator>

int main(int count, char **words) try {
    roman::Shelf shelf;
    for (int i = 1; i < count; i++) {
        std::ifstream file(words[i], std::ios::binary);
        const std::string text{std::istreambuf_iterator<char>(file), {}};
        shelf.add(words[i], text);
    }
    roman::Session session(shelf, count > 1 ? words[1] : "");
    for (std::string line; std::getline(std::cin, line);) {
        const auto reply = session.answer(line);
        std::cout << reply.text;
        if (reply.status == ROMAN_QUIT) break;
    }
    return 0;
} catch (const roman::Refused &refused) {
    std::cout << refused.what();
    return static_cast<int>(refused.status);
}
