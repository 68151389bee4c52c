// The header and the library from C++: a store is opened, named and asked.
#include <array>
#include <cstdio>
#include <vector>

#include "lupinadze.h"

static std::vector<uint8_t> store(LUPINADZE_STORE_BYTES);
static std::array<uint64_t, LUPINADZE_ANSWER_NUMBERS> answer;

template <size_t Length> static uint64_t open(const std::array<uint8_t, Length> &opening) {
    return lupinadze_open(store.data(), store.size(), opening.data(), Length, answer.data(), answer.size());
}

template <size_t Length> static uint64_t apply(const std::array<uint8_t, Length> &commands) {
    return lupinadze_apply(store.data(), store.size(), commands.data(), Length, answer.data(), answer.size());
}

int main() {
    const std::array<uint8_t, LUPINADZE_OPENING_HEAD_BYTES> opening{};
    const std::array<uint8_t, LUPINADZE_NAMING_BYTES> naming{{LUPINADZE_COMMAND_NAMING, 1, 'p'}};
    std::array<uint8_t, LUPINADZE_LINE_BYTES> out{};
    bool holds = open(opening) == opening.size() && answer[0] == LUPINADZE_ANSWER_APPLIED;
    holds = holds && apply(naming) == 1 && answer[0] == LUPINADZE_ANSWER_APPLIED;
    holds = holds && lupinadze_node(store.data(), store.size(), 1, out.data(), out.size()) == LUPINADZE_NONE;
    holds = holds && lupinadze_dump(store.data(), store.size(), 0, out.data(), out.size()) == 9; // name =70
    if (!holds)
        std::fprintf(stderr, "linked: not as expected\n");
    return holds ? 0 : 1;
}
