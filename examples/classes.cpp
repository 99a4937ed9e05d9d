// classes.cpp: searches the states from a board of FreeCell, some 100,000 at most, and counts them
// and their classes: those that differ in names of suits and orders of columns and cells are one
// class.
//
//   c++ -std=c++17 -O2 classes.cpp $(pkg-config --cflags --libs fcanon) -o classes
//   ./classes < late.board
#include <fcanon.hpp>
#include <cstdio>
#include <deque>
#include <iostream>
#include <iterator>
#include <string>
#include <unordered_set>

using fcanon::Board;

int main() try {
    std::string text(std::istreambuf_iterator<char>(std::cin), {});
    Board board = Board::read(FCANON_FREECELL, text);
    std::unordered_set<Board> states{board}, classes;
    std::deque<Board> open{board};
    for (; !open.empty() && states.size() < 100000; open.pop_front())
        for (fcanon::Move move : open.front().moves()) {
            Board after = open.front().after(move);
            if (states.insert(after).second) open.push_back(after);
        }
    for (const Board &state : states) classes.insert(state.key());
    std::printf("%zu states, %zu classes\n", states.size(), classes.size());
} catch (const fcanon::Error &error) {
    std::printf("%s at byte %zu\n", error.what(), error.place());
    return 1;
}
