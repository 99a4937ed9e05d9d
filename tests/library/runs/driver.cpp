/* driver: answers each case of standard input by fcanon_runs.hpp; tests/lib/cases.py says how. */
#include "fcanon_runs.hpp"
#include <algorithm>
#include <iostream>
#include <sstream>

static const std::vector<std::string> tasks = {"show",  "canon", "check", "group",      "share", "expand", "unique",
                                               "table", "same",  "symmetries", "count", "closed"};
static const std::vector<std::string> games = {"freecell", "bakers_game", "eight_off"};
static const std::vector<std::string> formats = {"lines", "header", "json"};
static const std::vector<std::string> lines = {"lines", "columns", "rows"};

static std::uint32_t place(const std::string &word, const std::vector<std::string> &words) {
    return static_cast<std::uint32_t>(std::find(words.begin(), words.end(), word) - words.begin());
}

static std::string text_of(const std::string &digits) {
    std::string text;
    for (std::size_t at = 0; at < digits.size(); at += 2)
        text += static_cast<char>(std::stoi(digits.substr(at, 2), nullptr, 16));
    return text;
}

static std::string digits_of(const std::string &text) {
    std::string digits;
    for (char sign : text) (digits += "0123456789abcdef"[sign >> 4 & 15]) += "0123456789abcdef"[sign & 15];
    return digits;
}

static fcanon::Printed done(const std::string &task, std::uint32_t game, const std::string &form, bool any_size,
                            const std::string &text) {
    if (task == "import") return fcanon::import_text(text, game, place(form, lines));
    return fcanon::run(place(task, tasks), text, game, place(form, formats), any_size);
}

static void answer(const std::string &line) {
    std::istringstream words(line);
    std::string task, game, form, size, digits;
    words >> task >> game >> form >> size >> digits;
    try {
        fcanon::Printed it = done(task, place(game, games), form, size == "1", text_of(digits));
        std::cout << it.status() << ' ' << digits_of(it.text) << ' ' << digits_of(it.said) << '\n';
    } catch (const fcanon::GaveUp &fault) {
        std::cout << "3 - " << digits_of(std::string("fcanon: ") + fault.what() + '\n') << '\n';
    }
}

/* Numbers that name nothing are refused by their words. */
static bool refuses(std::uint32_t task, std::uint32_t game, std::uint32_t format, const std::string &words) {
    try {
        fcanon::run(task, "@", game, format);
    } catch (const fcanon::GaveUp &fault) {
        return words == fault.what();
    }
    return false;
}

int main() {
    if (!refuses(FCANON_TASKS, 0, 0, "no such task") || !refuses(0, 0, 3, "no such format") || !refuses(0, 3, 0, "no such game")) return 1;
    for (std::string line; std::getline(std::cin, line);) answer(line);
}
