// play.cpp - plays a trace through Darbexum::Engine, and prints the output's datagrams: play CONFIG < TRACE.
#include "darbexum.hpp"

#include <cstdio>
#include <fstream>
#include <iostream>
#include <iterator>
#include <sstream>
#include <vector>

static void print(Darbexum::Octets datagram) {
    std::printf("out ");
    for (auto octet : datagram) std::printf("%02x", octet);
    std::printf("\n");
}

static std::vector<std::uint8_t> octets_of(const std::string &hex) {
    std::vector<std::uint8_t> octets(hex.size() / 2);
    for (std::size_t i = 0; i < octets.size(); i++) octets[i] = std::uint8_t(std::stoul(hex.substr(2 * i, 2), nullptr, 16));
    return octets;
}

static void play(Darbexum::Engine engine) {
    for (std::string line; std::getline(std::cin, line);) {
        std::istringstream words(line);
        std::string word, hex;
        words >> word;
        if (word == "tick") {
            std::int64_t now;
            words >> now;
            engine.turn(now, print);
        } else if (word == "close") {
            engine.close(print);
        } else if (word.size() == 1 && word[0] >= 'a' && word[0] <= 'd') {
            std::size_t stream;
            words >> stream >> hex;
            engine.arrive(stream, std::uint8_t(word[0] - 'a'), octets_of(hex));
        }
    }
}

int main(int count, char **words) try {
    std::ifstream file(count > 1 ? words[1] : "");
    std::string config{std::istreambuf_iterator<char>(file), {}};
    Darbexum::Engine engine(config);
    play(std::move(engine));
    return 0;
} catch (const Darbexum::Error &error) {
    std::fprintf(stderr, "%d: %s\n", error.code(), error.what());
    return 1;
}
