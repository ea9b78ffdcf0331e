// A night in C++17: a whole script is played, and the closing screen written as `ucl_night night` writes it.
//
//     c++ -std=c++17 night.cpp -I FOLDER FOLDER/libuclboard.a -o night && ./night A < ../first_night.csv

#include "uclboard.h"
#include <algorithm>
#include <array>
#include <cstdlib>
#include <iostream>
#include <iterator>
#include <stdexcept>
#include <string>
#include <vector>

// Throws where a call was not done: the name of its status, and the word, the row or the slot where the status has one.
static void need(uclboard_status status, uint32_t told) {
    if (status == UCLBOARD_DONE) return;
    std::array<char, UCLBOARD_NAME_ROOM> name;
    std::size_t length = 0;
    std::string fault = "status " + std::to_string(status);
    if (uclboard_text_of_status(status, name.data(), name.size(), &length) == UCLBOARD_DONE) fault.assign(name.data(), length);
    throw std::runtime_error(told != 0 ? fault + " " + std::to_string(told) : fault);
}

// A script that was played: its clubs, the twelve matches after its events, and what became of each event.
class Night {
public:
    explicit Night(const std::string &script) : replies(1 + static_cast<std::size_t>(std::count_if(script.begin(), script.end(), ends_row))) {
        std::size_t count = 0;
        uint32_t at = 0;
        const uclboard_status status = uclboard_script(script.data(), script.size(), clubs.data(), clubs.size(), words.data(), words.size(),
                                                       replies.data(), replies.size(), &count, &at);
        need(status, at);
        replies.resize(count);
    }

    std::size_t entered() const {
        return static_cast<std::size_t>(std::count_if(replies.begin(), replies.end(), [](const uclboard_reply &reply) { return reply.status == UCLBOARD_DONE; }));
    }

    uint32_t version() const {
        uint32_t version = 0, at = 0;
        const uclboard_status status = uclboard_board_version(words.data(), words.size(), &version, &at);
        need(status, at);
        return version;
    }

    std::string screen(char group, uint32_t profile) const {
        std::array<char, UCLBOARD_SCREEN_ROOM> text;
        std::size_t length = 0;
        uint32_t at = 0;
        const uclboard_status status = uclboard_screen(words.data(), words.size(), clubs.data(), clubs.size(), static_cast<unsigned char>(group),
                                                       profile, text.data(), text.size(), &length, &at);
        need(status, at);
        return std::string(text.data(), length);
    }

private:
    static bool ends_row(char byte) { return byte == '\n' || byte == '\r'; }
    std::array<uclboard_club, UCLBOARD_CLUBS> clubs;
    std::array<uint64_t, UCLBOARD_WORDS> words;
    std::vector<uclboard_reply> replies;
};

static void play(const std::string &script, char group, uint32_t profile) {
    const Night night(script);
    if (night.entered() != night.version()) throw std::logic_error("the version is not the number of events that were entered");
    const std::string screen = night.screen(group, profile);
    std::cout << "FINAL\n" << screen;
}

int main(int argc, char **argv) {
    const bool away = argc > 2 && std::string(argv[2]) == "away-in-tie";
    try {
        const std::istreambuf_iterator<char> begin(std::cin), end;
        play(std::string(begin, end), argc > 1 ? argv[1][0] : 'A', away ? UCLBOARD_AWAY_IN_TIE : UCLBOARD_UEFA);
    } catch (const std::exception &fault) {
        std::cerr << "night: " << fault.what() << "\n";
        return EXIT_FAILURE;
    }
    return EXIT_SUCCESS;
}
