// first.cpp: prints the canonical board of Microsoft's deal 1, and the move 3a as it is made there.
#include <fcanon.hpp>
#include <iostream>
int main() {
    auto [canonical, passage] = fcanon::Board::deal(FCANON_FREECELL, 1).canonicalize();
    std::cout << canonical.text() << "> " << passage.carry(fcanon::Move("3a")).text() << '\n';
}
