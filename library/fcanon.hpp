/* fcanon.hpp: the calls of fcanon.h for C++11 and later, with values that compare and hash.
 *
 *   fcanon::Board board = fcanon::Board::deal(FCANON_FREECELL, 1);
 *   fcanon::Canonical there = board.canonicalize();
 *   std::cout << there.board.text() << "> " << there.passage.carry(fcanon::Move("3a")).text() << '\n';
 *
 * fcanon.h says what each call does. Here every answer but 0 is thrown as fcanon::Error; no value that
 * was made holds what its game forbids. A Board and a Passage know their game, and hold the bytes that
 * fcanon.h describes; they and moves are values: they are copied, compared by == and by <, and
 * hashed by std::hash, by all their bytes. A call takes memory where it gives a string or a vector, and is not
 * noexcept; nothing is kept, so that calls of several threads may run at once on values of their own.
 *
 * A Span is std::span where the compiler has it, from C++20 on, and else a pointer and a size.
 */
#ifndef FCANON_HPP
#define FCANON_HPP

#include "fcanon.h"
#include <array>
#include <cstddef>
#include <cstdint>
#include <cstring>
#include <exception>
#include <functional>
#include <string>
#include <vector>

#if defined(__has_include)
#if __has_include(<version>)
#include <version>
#endif
#endif
#ifdef __cpp_lib_span
#include <span>
#endif

namespace fcanon {

#ifdef __cpp_lib_span
template <class T> using Span = std::span<T>;
#else
/* So many values one after another, which are somebody else's. */
template <class T> class Span {
public:
    Span() noexcept : first(nullptr), many(0) {}
    Span(T *data, std::size_t size) noexcept : first(data), many(size) {}
    template <std::size_t Many> Span(T (&array)[Many]) noexcept : first(array), many(Many) {}
    template <class Whole> Span(Whole &whole) noexcept : first(whole.data()), many(whole.size()) {}
    T *data() const noexcept { return first; }
    std::size_t size() const noexcept { return many; }
    T *begin() const noexcept { return first; }
    T *end() const noexcept { return first + many; }
    T &operator[](std::size_t at) const noexcept { return first[at]; }

private:
    T *first;
    std::size_t many;
};
#endif

constexpr std::size_t nowhere = static_cast<std::size_t>(-1);

/* An answer of a call that is not 0; and of a text or of many boards the place of the fault, from 0. */
class Error : public std::exception {
public:
    explicit Error(std::uint32_t answer, std::size_t place = nowhere) noexcept : number(answer), at(place) {}
    std::uint32_t answer() const noexcept { return number; }
    /* In bytes of a text, or in boards; or `nowhere`. */
    std::size_t place() const noexcept { return at; }
    const char *what() const noexcept override { return fcanon_answer_text(number); }

private:
    std::uint32_t number;
    std::size_t at;
};

namespace detail {

inline void must(std::uint32_t answer) {
    if (answer) throw Error(answer);
}

/* How two values of bytes are compared and hashed. FNV-1a, of 64 bits. */
template <class T> int order(const T &one, const T &other) noexcept {
    return std::memcmp(&one, &other, sizeof one);
}

template <class T> std::size_t hash(const T &value, std::uint64_t start) noexcept {
    unsigned char bytes[sizeof value];
    std::memcpy(bytes, &value, sizeof value);
    std::uint64_t sum = 14695981039346656037u ^ start;
    for (unsigned char byte : bytes) sum = (sum ^ byte) * 1099511628211u;
    return static_cast<std::size_t>(sum ^ sum >> 32);
}

inline std::uint8_t lower(char letter) noexcept {
    return static_cast<std::uint8_t>('A' <= letter && letter <= 'Z' ? letter + 32 : letter);
}

} // namespace detail

/* A move of one card: two piles in standard notation, "3a" or "bh", in either case. Which piles there are
 * is the game's to say: what is none is refused where the move is used. */
struct Move : fcanon_move {
    Move() noexcept : fcanon_move() {}
    Move(fcanon_move move) noexcept : fcanon_move(move) {}
    Move(char source, char target) noexcept : fcanon_move() { from = detail::lower(source), to = detail::lower(target); }
    explicit Move(const std::string &text) : fcanon_move() {
        if (text.size() != 2) throw Error(FCANON_NO_MOVE);
        from = detail::lower(text[0]);
        to = detail::lower(text[1]);
    }
    std::string text() const { return {static_cast<char>(from), static_cast<char>(to)}; }
};

/* A move of several cards: two columns, and how many cards, or not: "14v3" or "14"; or as a Move. */
struct Run : fcanon_run_move {
    Run() noexcept : fcanon_run_move() {}
    Run(fcanon_run_move run) noexcept : fcanon_run_move(run) {}
    explicit Run(fcanon_move move) noexcept : fcanon_run_move() { from = move.from, to = move.to; }
    explicit Run(const std::string &text) : fcanon_run_move() {
        bool has_count = text.size() == 4 && detail::lower(text[2]) == 'v';
        if (has_count) count = digit(detail::lower(text[3]));
        if (has_count ? !count : text.size() != 2) throw Error(FCANON_NO_MOVE);
        from = detail::lower(text[0]);
        to = detail::lower(text[1]);
    }
    std::string text() const {
        std::string made = {static_cast<char>(from), static_cast<char>(to)};
        return count ? made + 'v' + "0123456789abcd"[count % 14] : made;
    }

private:
    /* How many cards a hexadecimal digit says, 1 to 13, or 0. */
    static std::uint8_t digit(std::uint8_t letter) noexcept {
        if ('1' <= letter && letter <= '9') return static_cast<std::uint8_t>(letter - '0');
        return static_cast<std::uint8_t>('a' <= letter && letter <= 'd' ? letter - 'a' + 10 : 0);
    }
};

/* A passage of a game: what suits, columns and cells become. */
class Passage {
public:
    /* The passage of these bytes. */
    Passage(std::uint32_t game, const fcanon_passage &bytes) : number(game), held(bytes) { inverse(); }

    std::uint32_t game() const noexcept { return number; }
    const fcanon_passage &bytes() const noexcept { return held; }

    Passage inverse() const {
        Passage made(number);
        detail::must(fcanon_inverse(number, &held, &made.held));
        return made;
    }
    /* This passage, and then the next. */
    Passage then(const Passage &next) const {
        if (number != next.number) throw Error(FCANON_NO_PASSAGE);
        Passage made(number);
        detail::must(fcanon_then(number, &held, &next.held, &made.held));
        return made;
    }
    Move carry(Move move) const {
        detail::must(fcanon_carry(number, &held, &move));
        return move;
    }
    Run carry(Run run) const {
        detail::must(fcanon_carry_run(number, &held, &run));
        return run;
    }

private:
    friend class Board;
    explicit Passage(std::uint32_t game) noexcept : number(game), held() {}
    std::uint32_t number;
    fcanon_passage held;
};

/* The sums of a board, from which the hash of its class is made. A search moves them with its board. */
class ClassSums {
public:
    /* The sums that these are; of a board by Board::class_sums. */
    ClassSums(std::uint32_t game, const fcanon_class_sums &sums) : number(game), held(sums) { hash(); }

    std::uint32_t game() const noexcept { return number; }
    const fcanon_class_sums &sums() const noexcept { return held; }
    /* Takes the sums along with a move of this card: as fcanon_move_sums. */
    void move(std::uint8_t card, std::uint8_t from, std::uint8_t onto) {
        detail::must(fcanon_move_sums(number, card, from, onto, &held));
    }
    /* The hash of the board's class: as fcanon_class_hash. */
    std::array<std::uint8_t, 16> hash() const {
        std::array<std::uint8_t, 16> made;
        detail::must(fcanon_class_hash(number, &held, made.data()));
        return made;
    }

private:
    friend class Board;
    explicit ClassSums(std::uint32_t game) noexcept : number(game), held() {}
    std::uint32_t number;
    fcanon_class_sums held;
};

struct Canonical;
struct Children;

/* A board of a game, on which each card is once. */
class Board {
public:
    /* The board of these bytes. */
    Board(std::uint32_t game, const fcanon_board &bytes) : number(game), held(bytes) {
        char text[256];
        detail::must(fcanon_write(game, &bytes, text));
    }
    /* One of Microsoft's deals. */
    static Board deal(std::uint32_t game, std::uint32_t deal_number) {
        Board made(game);
        detail::must(fcanon_deal(game, deal_number, &made.held));
        return made;
    }
    /* The board that a text spells; a fault is thrown with its place. */
    static Board read(std::uint32_t game, const char *text, std::size_t length) {
        Board made(game);
        std::size_t place = nowhere;
        if (std::uint32_t answer = fcanon_read(game, text, length, &made.held, &place)) throw Error(answer, place);
        return made;
    }
    static Board read(std::uint32_t game, const std::string &text) { return read(game, text.data(), text.size()); }

    std::uint32_t game() const noexcept { return number; }
    const fcanon_board &bytes() const noexcept { return held; }
    bool is_won() const noexcept { return fcanon_is_won(&held); }
    std::string text() const {
        char text[256];
        detail::must(fcanon_write(number, &held, text));
        return text;
    }

    Board key() const {
        Board made(number);
        detail::must(fcanon_key(number, &held, &made.held));
        return made;
    }
    Canonical canonicalize() const;
    /* The canonical board after a move, and the passage to it from the board after the move. */
    Canonical child(Move move) const;
    Children children() const;
    bool is_unsolvable(Span<const fcanon_board> keys) const;
    std::array<std::uint8_t, 16> hash() const {
        std::array<std::uint8_t, 16> made;
        detail::must(fcanon_hash(number, &held, made.data()));
        return made;
    }
    ClassSums class_sums() const {
        ClassSums made(number);
        detail::must(fcanon_sums(number, &held, &made.held));
        return made;
    }
    /* The renamings that with some orders lead from the board to itself: what clubs, diamonds, hearts and
     * spades become, 0 to 3. The first changes nothing. */
    std::vector<std::array<std::uint8_t, 4>> symmetries() const {
        std::uint8_t suits[24][4];
        std::uint32_t count;
        detail::must(fcanon_symmetries(number, &held, suits, &count));
        std::vector<std::array<std::uint8_t, 4>> made(count);
        std::memcpy(made.data(), suits, 4 * count);
        return made;
    }
    /* The passage to another board; FCANON_APART is thrown where there is none. */
    Passage passage_to(const Board &other) const {
        if (number != other.number) throw Error(FCANON_APART);
        Passage made(number);
        detail::must(fcanon_same(number, &held, &other.held, &made.held));
        return made;
    }
    /* The board that the passage leads to. */
    Board image(const Passage &passage) const {
        if (number != passage.number) throw Error(FCANON_NO_PASSAGE);
        Board made(number);
        detail::must(fcanon_image(number, &passage.held, &held, &made.held));
        return made;
    }

    std::vector<Move> moves() const {
        fcanon_move found[FCANON_MOST_CHILDREN];
        return {found, found + moves_into(found)};
    }
    std::vector<Run> run_moves() const {
        fcanon_run_move found[FCANON_MOST_RUN_MOVES];
        std::size_t count;
        detail::must(fcanon_run_moves(number, &held, found, FCANON_MOST_RUN_MOVES, &count));
        return {found, found + count};
    }
    /* The moves, each with the class hash of the board after it, made of this board's sums: as fcanon_known_child_hashes. */
    std::vector<fcanon_child_hash> child_hashes(const ClassSums &sums) const {
        fcanon_child_hash found[FCANON_MOST_CHILDREN];
        return {found, found + child_hashes_into(sums, found)};
    }
    /* The same as moves, children and child_hashes, into room that is there; so many were written. */
    std::size_t moves_into(Span<fcanon_move> room) const {
        std::size_t count;
        detail::must(fcanon_moves(number, &held, room.data(), room.size(), &count));
        return count;
    }
    std::size_t children_into(Span<fcanon_move> moves, Span<fcanon_board> keys) const {
        std::size_t count;
        detail::must(fcanon_children(number, &held, moves.data(), moves.size(), keys.data(), keys.size(), &count));
        return count;
    }
    std::size_t child_hashes_into(const ClassSums &sums, Span<fcanon_child_hash> room) const {
        if (number != sums.number) throw Error(FCANON_NO_BOARD);
        std::size_t count;
        detail::must(fcanon_known_child_hashes(number, &held, &sums.held, room.data(), room.size(), &count));
        return count;
    }
    /* The board after a move; or the game's reason is thrown, and this board stays in each case. */
    Board after(const Run &run) const {
        Board made(*this);
        detail::must(fcanon_play_run(number, &made.held, &run));
        return made;
    }
    Board after(const Move &move) const {
        Board made(*this);
        detail::must(fcanon_play(number, &made.held, &move));
        return made;
    }
    /* The moves of one card that do what a move of several does. */
    std::vector<Move> expand(const Run &run) const {
        fcanon_move found[FCANON_MOST_MOVES];
        std::size_t count;
        detail::must(fcanon_expand(number, &held, &run, found, FCANON_MOST_MOVES, &count));
        return {found, found + count};
    }
    /* How many cards can go at once to a column, '1' to '8'. */
    std::uint32_t capacity(char to) const {
        std::uint32_t cards;
        detail::must(fcanon_capacity(number, &held, static_cast<std::uint8_t>(to), &cards));
        return cards;
    }

private:
    explicit Board(std::uint32_t game) noexcept : number(game), held() {}
    std::uint32_t number;
    fcanon_board held;
};

struct Canonical {
    Board board;
    Passage passage;
};

/* The moves that the game allows, and the bytes of the canonical board after each. */
struct Children {
    std::vector<Move> moves;
    std::vector<fcanon_board> keys;
};

inline Canonical Board::canonicalize() const {
    Canonical made = {Board(number), Passage(number)};
    detail::must(fcanon_canon(number, &held, &made.board.held, &made.passage.held));
    return made;
}

inline Canonical Board::child(Move move) const {
    Canonical made = {Board(number), Passage(number)};
    detail::must(fcanon_child(number, &held, &move, &made.board.held, &made.passage.held));
    return made;
}

inline Children Board::children() const {
    fcanon_move found[FCANON_MOST_CHILDREN];
    std::vector<fcanon_board> keys(FCANON_MOST_CHILDREN);
    std::size_t count = children_into(found, keys);
    keys.resize(count);
    return {std::vector<Move>(found, found + count), keys};
}

/* Makes each of the boards its key. The first that is no board is thrown with its index: those before it
 * are keys then, and the others as they were. */
inline void make_keys(std::uint32_t game, Span<fcanon_board> boards) {
    std::size_t place = nowhere;
    if (std::uint32_t answer = fcanon_keys(game, boards.data(), boards.size(), &place)) throw Error(answer, place);
}

/* What is wrong with keys, or FCANON_DONE; with which of them, and for FCANON_OPEN the move that leads out. */
struct Flaw {
    std::uint32_t answer;
    std::size_t place;
    Move move;
};

/* Whether keys are those of a closed list, as fcanon_closed says it; if not, what is wrong with them. */
inline Flaw find_flaw(std::uint32_t game, Span<const fcanon_board> keys) {
    Flaw flaw = {FCANON_DONE, nowhere, Move()};
    flaw.answer = fcanon_closed(game, keys.data(), keys.size(), &flaw.place, &flaw.move);
    if (flaw.answer == FCANON_NO_GAME) throw Error(flaw.answer);
    return flaw;
}

/* Whether keys show that no list of moves wins from the board, as fcanon_unsolvable says it. */
inline bool Board::is_unsolvable(Span<const fcanon_board> keys) const {
    std::uint32_t answer = fcanon_unsolvable(number, &held, keys.data(), keys.size());
    if (answer != FCANON_NOT_CLOSED && answer != FCANON_NOT_AMONG) detail::must(answer);
    return answer == FCANON_DONE;
}

/* Two values are one if all their bytes are, and their games. */
inline bool operator==(const Move &one, const Move &other) noexcept { return !detail::order(one, other); }
inline bool operator<(const Move &one, const Move &other) noexcept { return detail::order(one, other) < 0; }
inline bool operator==(const Run &one, const Run &other) noexcept { return !detail::order(one, other); }
inline bool operator<(const Run &one, const Run &other) noexcept { return detail::order(one, other) < 0; }
inline bool operator==(const Passage &one, const Passage &other) noexcept {
    return one.game() == other.game() && !detail::order(one.bytes(), other.bytes());
}
inline bool operator<(const Passage &one, const Passage &other) noexcept {
    return one.game() != other.game() ? one.game() < other.game() : detail::order(one.bytes(), other.bytes()) < 0;
}
inline bool operator==(const Board &one, const Board &other) noexcept {
    return one.game() == other.game() && !detail::order(one.bytes(), other.bytes());
}
inline bool operator<(const Board &one, const Board &other) noexcept {
    return one.game() != other.game() ? one.game() < other.game() : detail::order(one.bytes(), other.bytes()) < 0;
}
#ifndef __cpp_impl_three_way_comparison
inline bool operator!=(const Move &one, const Move &other) noexcept { return !(one == other); }
inline bool operator!=(const Run &one, const Run &other) noexcept { return !(one == other); }
inline bool operator!=(const Passage &one, const Passage &other) noexcept { return !(one == other); }
inline bool operator!=(const Board &one, const Board &other) noexcept { return !(one == other); }
#endif

} // namespace fcanon

/* The type of fcanon.h, for tables of the bytes of boards. */
inline bool operator==(const fcanon_board &one, const fcanon_board &other) noexcept {
    return fcanon_equal(&one, &other);
}

namespace std {
template <> struct hash<fcanon_board> {
    size_t operator()(const fcanon_board &it) const noexcept { return fcanon::detail::hash(it, 0); }
};
template <> struct hash<fcanon::Board> {
    size_t operator()(const fcanon::Board &it) const noexcept { return fcanon::detail::hash(it.bytes(), it.game()); }
};
template <> struct hash<fcanon::Passage> {
    size_t operator()(const fcanon::Passage &it) const noexcept { return fcanon::detail::hash(it.bytes(), it.game()); }
};
template <> struct hash<fcanon::Move> {
    size_t operator()(const fcanon::Move &it) const noexcept { return fcanon::detail::hash(it, 0); }
};
template <> struct hash<fcanon::Run> {
    size_t operator()(const fcanon::Run &it) const noexcept { return fcanon::detail::hash(it, 0); }
};
} // namespace std

#endif
