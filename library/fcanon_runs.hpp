/* fcanon_runs.hpp: the calls of fcanon_runs.h for C++11 and later: whole commands from text to text.
 *
 *   fcanon::Printed there = fcanon::run(FCANON_TASK_GROUP, text);
 *   std::cout << there.text;
 *
 * fcanon_runs.h says what each call does. Here every answer but 0 is thrown: std::bad_alloc for want of
 * memory, else fcanon::GaveUp.
 */
#ifndef FCANON_RUNS_HPP
#define FCANON_RUNS_HPP

#include "fcanon.hpp"
#include "fcanon_runs.h"
#include <new>
#include <random>

namespace fcanon {

/* What a command prints, and of how many records. */
struct Printed {
    std::string text;    /* what the program prints to standard output */
    std::string said;    /* what it prints to standard error: the notes of an import */
    std::size_t records; /* how many were read; of an import, how many boards and refused blocks */
    std::size_t refused; /* how many of them are refused, and one more where FCANON_TASK_CLOSED finds a flaw */

    /* The status that the program ends with. */
    int status() const noexcept { return refused > 0; }
};

namespace detail {

/* tools/tables wrote this from fcanon_runs.h, to the next empty line. */
inline const char *words_of(std::uint32_t answer) noexcept {
    switch (answer) {
    case 10: return "no such task";
    case 11: return "no such format";
    case 12: return "out of memory";
    case 13: return "input too large";
    case 14: return "input not read to its end";
    default: return fcanon_answer_text(answer);
    }
}

} // namespace detail

/* An answer of a whole command that is not 0. */
class GaveUp : public Error {
public:
    explicit GaveUp(std::uint32_t answer) noexcept : Error(answer) {}
    const char *what() const noexcept override { return detail::words_of(answer()); }
};

namespace detail {

/* Calls with room for some output and notes, and once more with what is needed where that was too little. */
template <class Call> Printed printed(std::size_t size, std::size_t notes, Call call) {
    fcanon_imported lengths = {{2 * size + 4096, 0, 0}, notes};
    Printed made = {};
    std::uint32_t answer;
    do {
        made.text.resize(lengths.written.length);
        made.said.resize(lengths.noted);
        answer = call(made, lengths);
    } while (answer == FCANON_NO_ROOM);
    if (answer == 12) throw std::bad_alloc();
    if (answer) throw GaveUp(answer);
    made.text.resize(lengths.written.length);
    made.said.resize(lengths.noted);
    made.records = lengths.written.records;
    made.refused = lengths.written.refused;
    return made;
}

} // namespace detail

/* What a command, as FCANON_TASK_GROUP, prints of a collection. The game is that of records without a header. At most
 * 65,536 records and 16 MiB are taken, unless any size is. */
inline Printed run(std::uint32_t task, const std::string &text, std::uint32_t game = FCANON_FREECELL,
                   std::uint32_t format = FCANON_FORMAT_LINES, bool any_size = false) {
    std::random_device chance;
    fcanon_request request = {task, format, game, any_size, static_cast<std::uint64_t>(chance()) << 32 | chance()};
    return detail::printed(text.size(), 0, [&](Printed &made, fcanon_imported &lengths) {
        return fcanon_run(&request, text.data(), text.size(), &made.text[0], made.text.size(), &lengths.written);
    });
}

/* The collection that `fcanon import` makes of a text, and its notes. Lines of cards that may be columns or rows are the
 * ones or the others, as FCANON_LINES_ROWS says. */
inline Printed import_text(const std::string &text, std::uint32_t game = FCANON_FREECELL,
                           std::uint32_t lines = FCANON_LINES_UNSAID) {
    fcanon_import_request request = {game, lines};
    return detail::printed(text.size(), 4096, [&](Printed &made, fcanon_imported &lengths) {
        return fcanon_import(&request, text.data(), text.size(), &made.text[0], made.text.size(),
                             &made.said[0], made.said.size(), &lengths);
    });
}

} // namespace fcanon

#endif
