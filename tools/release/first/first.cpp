// The first path in C++17: a level is opened, a crate put across its room, and the way round it asked for.
//
//     first examples/detour.nav       cost 180, 5 links, 2 turns: (144, 64) (144, 96)
#include <navd.hpp>

#include <fstream>
#include <iostream>
#include <iterator>
#include <string>

static int failed(const char *what) {
    std::cerr << what << "\n";
    return 1;
}

int main(int argc, char **words) {
    if (argc != 2) return failed("usage: first FIELD");
    std::ifstream file(words[1], std::ios::binary);
    const std::string text(std::istreambuf_iterator<char>(file), {});
    navd::Level level;
    navd::Path path;
    navd_fault fault;
    uint32_t number;
    using navd::Status;
    if (level.open(text, fault) != Status::ok) return failed("no level");
    if (level.add_block({1, 8, 0, 100, 4, 5}, 0, number) != Status::ok || level.settle(number) != Status::ok) return failed("no crate");
    if (level.find_path({{40, 40}, 10, {40, 120}, 10}, path) != Status::ok) return failed("no path");
    std::cout << "cost " << path.cost << ", " << path.links.size() << " links, " << path.turns.size() << " turns:";
    for (const navd_turn &turn : path.turns) std::cout << " (" << turn.at.x << ", " << turn.at.z << ")";
    std::cout << "\n";
}
