// check.cpp - tests what Darbexum::Engine returns of each block: check CONFIG. The configuration is that of
// examples/first. It prints what differs, and returns how many did.
#include "darbexum.hpp"

#include <cstdio>
#include <fstream>
#include <iterator>
#include <string>
#include <vector>

static int differing;

static void expect(const char *what, bool holds) {
    if (!holds) differing++, std::printf("%s differs\n", what);
}

// A packet of six samples, 1 to 6.
static const std::uint8_t PACKET[30] = {0x80, 96, 0, 1, 0, 0, 0, 0, 0, 0, 0, 1, 0, 0, 1,
                                        0,    0,  2, 0, 0, 3, 0, 0, 4, 0, 0, 5, 0, 0, 6};

struct Block {
    std::vector<std::int32_t> inputs;
    Darbexum::Missing missing;
};

static Block block_of(Darbexum::Engine &engine) {
    auto inputs = engine.inputs();
    return {{inputs.begin(), inputs.end()}, engine.missing()};
}

static void check(Darbexum::Engine engine) {
    const std::vector<std::int32_t> silence(6, 0), samples{1, 2, 3, 4, 5, 6};
    expect("the inputs before the first datagram", block_of(engine).inputs == silence);
    expect("what is missing before it", engine.missing() == Darbexum::Missing{0, false});
    expect("the outcome", engine.arrive(0, 0, PACKET) == DARBEXUM_TAKEN);
    // The packet of the second block does not come.
    std::vector<Block> blocks;
    engine.turn(18, [&](Darbexum::Octets) { blocks.push_back(block_of(engine)); });
    expect("the number of blocks", blocks.size() == 2);
    if (blocks.size() != 2) return;
    expect("the inputs of a packet", blocks[0].inputs == samples);
    expect("what is missing in its block", blocks[0].missing == Darbexum::Missing{0, false});
    expect("the inputs without a packet", blocks[1].inputs == silence);
    expect("what is missing without it", blocks[1].missing == Darbexum::Missing{1, true});
    // What was read of an engine goes with it.
    Darbexum::Engine moved(std::move(engine));
    expect("the inputs of a moved engine", block_of(moved).inputs == silence);
    try {
        engine.inputs();
        expect("the inputs of no engine", false);
    } catch (const Darbexum::Error &error) {
        expect("their code", error.code() == DARBEXUM_NO_ENGINE);
    }
    try {
        engine.missing();
        expect("what is missing of no engine", false);
    } catch (const Darbexum::Error &error) {
        expect("its code", error.code() == DARBEXUM_NO_ENGINE);
    }
    engine = std::move(moved);
    expect("the inputs of an engine that was moved back", block_of(engine).inputs == silence);
}

int main(int count, char **words) try {
    std::ifstream file(count > 1 ? words[1] : "");
    std::string config{std::istreambuf_iterator<char>(file), {}};
    check(Darbexum::Engine(config));
    return differing;
} catch (const Darbexum::Error &error) {
    std::fprintf(stderr, "%d: %s\n", error.code(), error.what());
    return 1;
}
