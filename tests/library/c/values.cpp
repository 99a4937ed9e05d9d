/* values: what fcanon.hpp gives on boards of play of the three games, against the calls of fcanon.h, and how its
 * values compare, hash and refuse. It prints what is not so, and ends with 1 then. */
#include "fcanon.hpp"
#include <cstdio>
#include <map>
#include <set>
#include <type_traits>
#include <unordered_map>
#include <unordered_set>

using namespace fcanon;

#ifdef __cpp_lib_span
static_assert(std::is_same<Span<int>, std::span<int>>::value, "a span is another than std::span");
#elif __cplusplus >= 202002L
#error "C++20 has std::span"
#endif
static_assert(std::is_trivially_copyable<Board>::value && std::is_trivially_copyable<Passage>::value, "values are copied as bytes");
static_assert(sizeof(Move) == 2 && sizeof(Run) == 3, "moves are as large as those of fcanon.h");

static int faults;

#define MUST(test) ((test) ? 0 : (std::printf("line %d: %s\n", __LINE__, #test), faults++))
/* The answer that an expression throws, or 0; and the place with it. */
#define ANSWER(expression) answer_of([&] { (void)(expression); })

static std::size_t place;

template <class Call> static std::uint32_t answer_of(Call call) {
    place = nowhere;
    try {
        call();
    } catch (const Error &error) {
        place = error.place();
        MUST(std::string(error.what()) == fcanon_answer_text(error.answer()));
        return error.answer();
    }
    return 0;
}

static bool has(const Board &board, const fcanon_board &bytes) { return fcanon_equal(&board.bytes(), &bytes); }

static void try_child_hashes(const Board &board) {
    std::vector<fcanon_child_hash> hashes = board.child_hashes(board.class_sums());
    std::vector<Move> moves = board.moves();
    MUST(hashes.size() == moves.size());
    for (std::size_t at = 0; at < moves.size(); at++) {
        std::array<std::uint8_t, 16> hash = board.after(moves[at]).class_sums().hash();
        MUST(moves[at] == hashes[at].move && !std::memcmp(hashes[at].hash, hash.data(), 16));
    }
    MUST(ANSWER(board.child_hashes(Board::deal(board.game() == 0, 1).class_sums())) == FCANON_NO_BOARD);
}

static void try_moves(const Board &board) {
    std::vector<Move> moves = board.moves();
    Children children = board.children();
    MUST(children.moves == moves && children.keys.size() == moves.size());
    for (std::size_t at = 0; at < moves.size(); at++) {
        Board after = board.after(moves[at]);
        MUST(after != board && Move(moves[at].text()) == moves[at]);
        MUST(has(after.key(), children.keys[at]) && board.child(moves[at]).board == after.key());
        MUST(after.image(board.child(moves[at]).passage) == after.key());
        MUST(board.after(Run(moves[at])) == after);
    }
    std::vector<fcanon_board> keys(1, board.key().bytes());
    Flaw flaw = fcanon::find_flaw(board.game(), keys);
    MUST(board.is_unsolvable(keys) == (flaw.answer == FCANON_DONE) && (flaw.answer == FCANON_OPEN) == !moves.empty());
    MUST(flaw.answer != FCANON_OPEN || board.key().after(flaw.move) != board.key());
    for (const Run &run : board.run_moves()) {
        Board after = board;
        for (const Move &move : board.expand(run)) after = after.after(move);
        MUST(after == board.after(run) && Run(run.text()) == run && run.count <= board.capacity(static_cast<char>(run.to)));
    }
}

static void try_symmetries(const Board &board) {
    std::uint8_t suits[24][4];
    std::uint32_t count;
    MUST(!fcanon_symmetries(board.game(), &board.bytes(), suits, &count) && board.symmetries().size() == count);
    for (std::size_t at = 0; at < count; at++) MUST(!std::memcmp(board.symmetries()[at].data(), suits[at], 4));
}

static void try_board(const Board &board) {
    Canonical there = board.canonicalize();
    fcanon_board key;
    MUST(!fcanon_key(board.game(), &board.bytes(), &key) && has(there.board, key) && there.board == board.key());
    MUST(Board::read(board.game(), board.text()) == board && Board(board.game(), board.bytes()) == board);
    MUST(board.image(there.passage) == there.board && there.board.image(there.passage.inverse()) == board);
    MUST(board.passage_to(there.board).then(there.passage.inverse()).carry(Move("3a")) == Move('3', 'A'));
    MUST(Passage(board.game(), there.passage.bytes()) == there.passage && there.passage.carry(Run("3a")).text() == there.passage.carry(Move("3a")).text());
    MUST(board.hash() == there.board.hash());
    ClassSums sums = board.class_sums();
    MUST(sums.game() == board.game() && sums.hash() == there.board.class_sums().hash());
    fcanon_class_sums anew;
    MUST(!fcanon_sums(board.game(), &board.bytes(), &anew) && !std::memcmp(&anew, &sums.sums(), sizeof anew));
    sums.move(1, FCANON_ON_CELL, 2);
    MUST(!fcanon_move_sums(board.game(), 1, FCANON_ON_CELL, 2, &anew) && !std::memcmp(&anew, &sums.sums(), sizeof anew));
    MUST(ANSWER(sums.move(53, 0, 0)) == FCANON_NO_MOVE);
    MUST(std::hash<Board>()(there.board) == std::hash<Board>()(board.key()));
    MUST(!(board < board) && (board == there.board || (board < there.board) != (there.board < board)));
    try_child_hashes(board);
    try_symmetries(board);
    try_moves(board);
}

/* The boards of a play by the first of the moves that lead to a board that is not there yet. */
static std::vector<Board> play(Board board) {
    std::set<Board> seen = {board};
    std::vector<Board> boards = {board};
    for (int turn = 0; turn < 40; turn++) {
        for (const Move &move : board.moves()) {
            Board after = board.after(move);
            if (seen.insert(after).second) {
                boards.push_back(board = after);
                break;
            }
        }
    }
    return boards;
}

static void try_sets(const std::vector<Board> &boards) {
    std::unordered_set<Board> classes;
    std::unordered_set<fcanon_board> keys;
    std::unordered_map<Passage, int> passages;
    std::unordered_map<Move, int> moves;
    std::set<Passage> ordered;
    for (const Board &board : boards) {
        classes.insert(board.key());
        keys.insert(board.key().bytes());
        passages[board.canonicalize().passage]++;
        ordered.insert(board.canonicalize().passage);
        for (const Move &move : board.moves()) moves[move]++;
    }
    MUST(classes.size() == keys.size() && keys.size() > 3 && passages.size() == ordered.size() && ordered.size() > 1);
    MUST(moves.size() > 9 && moves.size() < 200);
    std::unordered_set<std::size_t> hashes;
    for (const Board &board : boards) hashes.insert(std::hash<Board>()(board));
    MUST(hashes.size() == std::set<Board>(boards.begin(), boards.end()).size());
}

static void try_spans(const std::vector<Board> &boards) {
    std::vector<fcanon_board> keys;
    for (const Board &board : boards) keys.push_back(board.bytes());
    make_keys(boards[0].game(), keys);
    for (std::size_t at = 0; at < boards.size(); at++) MUST(has(boards[at].key(), keys[at]));
    keys[2] = fcanon_board();
    MUST(ANSWER(make_keys(boards[0].game(), Span<fcanon_board>(keys.data(), 2))) == 0);
    MUST(ANSWER(make_keys(boards[0].game(), keys)) == FCANON_NO_BOARD && place == 2);
    fcanon_move room[FCANON_MOST_CHILDREN];
    fcanon_board children[FCANON_MOST_CHILDREN];
    MUST(boards[0].moves_into(room) == boards[0].moves().size());
    MUST(boards[0].children_into(room, children) == boards[0].moves().size());
    MUST(ANSWER(boards[0].moves_into(Span<fcanon_move>())) == FCANON_NO_ROOM);
}

static void try_refusals() {
    Board board = Board::deal(FCANON_FREECELL, 1), bakers = Board::deal(FCANON_BAKERS_GAME, 1);
    MUST(board != bakers && has(board, bakers.bytes()) && (board < bakers) != (bakers < board));
    MUST(std::hash<Board>()(board) != std::hash<Board>()(bakers));
    MUST(ANSWER(Board::deal(FCANON_EIGHT_OFF, 1)) == FCANON_NO_DEAL && place == nowhere);
    MUST(ANSWER(Board::deal(3, 1)) == FCANON_NO_GAME);
    MUST(ANSWER(Board(0, fcanon_board())) == FCANON_NO_BOARD && ANSWER(Board(7, board.bytes())) == FCANON_NO_GAME);
    MUST(ANSWER(Board::read(0, "KC KC\n")) == FCANON_REPEATED_CARD && place == 3);
    MUST(ANSWER(Board::read(0, nullptr, 0)) == FCANON_FIRST_MISSING_CARD);
    MUST(ANSWER(Passage(0, fcanon_passage())) == FCANON_NO_PASSAGE);
    MUST(ANSWER(board.passage_to(Board::deal(0, 2))) == FCANON_APART && ANSWER(board.passage_to(bakers)) == FCANON_APART);
    Passage other = bakers.canonicalize().passage, own = board.canonicalize().passage;
    MUST(ANSWER(own.then(other)) == FCANON_NO_PASSAGE && ANSWER(board.image(other)) == FCANON_NO_PASSAGE);
    MUST(ANSWER(own.carry(Move("9a"))) == FCANON_NO_MOVE && ANSWER(own.carry(Run("1av2"))) == FCANON_NO_MOVE);
    for (const char *text : {"", "1", "123", "12v0", "12ve", "12x3", "12v33"}) MUST(ANSWER(Run(text)) == FCANON_NO_MOVE);
    MUST(ANSWER(Move("1ah")) == FCANON_NO_MOVE && Run("12VD").count == 13 && Run("12vd").text() == "12vd");
    MUST(ANSWER(board.after(Move("11"))) == FCANON_SAME_PILE && ANSWER(board.after(Run("12"))) == FCANON_NO_RUN);
    MUST(ANSWER(board.capacity('9')) == FCANON_NO_COLUMN && board.capacity('1') == 5 && !board.is_won());
    MUST(Board::read(0, "Foundations: H-K C-K D-K S-K\n").is_won());
}

int main() {
    for (std::uint32_t game = 0; game < 3; game++) {
        std::vector<Board> boards;
        for (std::uint32_t number : {1u, 617u, 24u}) {
            Board dealt(game, Board::deal(FCANON_FREECELL, number).bytes());
            for (const Board &board : play(dealt)) boards.push_back(board);
        }
        for (const Board &board : boards) try_board(board);
        Board won = Board::read(game, "Found: C-K D-K H-K S-K\n");
        try_symmetries(won);
        MUST(won.symmetries().size() == (game ? 24 : 8));
        try_sets(boards);
        try_spans(boards);
    }
    try_refusals();
    return faults ? 1 : 0;
}
