/* calls.c: the module fcanon._calls: Board and Passage, and calls of fcanon.h over many boards.
 *
 * It is written for Python's stable ABI from 3.8 on, so that one file serves every later version.
 * errors.py has the class Error, and hands it to this module.
 */
#define Py_LIMITED_API 0x03080000
#define PY_SSIZE_T_CLEAN
#include <Python.h>
#include <fcanon.h>

typedef struct {
    PyObject_HEAD
    uint32_t game;
    fcanon_board board;
} Board;

typedef struct {
    PyObject_HEAD
    uint32_t game;
    fcanon_passage passage;
} Passage;

/* tools/tables wrote this from fcanon.h, to the next empty line. */
enum { GAMES = 3 };
static const char *const game_names[GAMES] = {"freecell", "bakers_game", "eight_off"};
static const int cell_counts[GAMES] = {4, 4, 8};

static PyTypeObject *board_type, *passage_type;
static PyObject *error_class, *games[GAMES];

/* ---- errors, games and moves */

/* Raises an answer, with a place of its own or with none, which is below 0. */
static void *refuse(uint32_t answer, Py_ssize_t place) {
    PyObject *error = place < 0 ? PyObject_CallFunction(error_class, "I", answer)
                                : PyObject_CallFunction(error_class, "In", answer, place);
    if (error) PyErr_SetObject(error_class, error);
    Py_XDECREF(error);
    return NULL;
}

/* The number of a game, or -1 with an error raised. Without a name it is FreeCell. */
static int game_of(PyObject *name) {
    if (!name) return FCANON_FREECELL;
    for (int game = 0; game < GAMES && PyUnicode_Check(name); game++)
        if (name == games[game] || !PyUnicode_Compare(name, games[game])) return game;
    refuse(FCANON_NO_GAME, -1);
    return -1;
}

/* The ASCII character at a place of a str, in lower case, or 0. */
static uint8_t character(PyObject *text, Py_ssize_t at) {
    Py_UCS4 it = PyUnicode_ReadChar(text, at);
    return it >= 128 ? 0 : (uint8_t)('A' <= it && it <= 'Z' ? it + 32 : it);
}

/* How many cards this hexadecimal digit says, 1 to 13, or 0. */
static uint8_t count_of(uint8_t digit) {
    if ('1' <= digit && digit <= '9') return digit - '0';
    return 'a' <= digit && digit <= 'd' ? digit - 'a' + 10 : 0;
}

/* Reads a move of one card, as "3a", or with this most length also one of several, as "14v3". Where
 * it is none, an error is raised and 0 returned. */
static int run_of(PyObject *text, Py_ssize_t most, fcanon_run_move *run) {
    if (!PyUnicode_Check(text)) {
        PyErr_SetString(PyExc_TypeError, "a move must be a str");
        return 0;
    }
    Py_ssize_t length = PyUnicode_GetLength(text);
    int has_count = length == 4 && most == 4 && character(text, 2) == 'v';
    run->count = has_count ? count_of(character(text, 3)) : 0;
    if (has_count ? !run->count : length != 2) {
        refuse(FCANON_NO_MOVE, -1);
        return 0;
    }
    run->from = character(text, 0);
    run->to = character(text, 1);
    return 1;
}

static PyObject *text_of_move(fcanon_move move) {
    return PyUnicode_FromFormat("%c%c", move.from, move.to);
}

static PyObject *text_of_run(fcanon_run_move run) {
    if (!run.count) return text_of_move((fcanon_move){run.from, run.to});
    return PyUnicode_FromFormat("%c%cv%x", run.from, run.to, run.count);
}

/* ---- making objects */

static Board *new_board(uint32_t game) {
    Board *it = (Board *)PyType_GenericAlloc(board_type, 0);
    if (it) it->game = game;
    return it;
}

static Passage *new_passage(uint32_t game) {
    Passage *it = (Passage *)PyType_GenericAlloc(passage_type, 0);
    if (it) it->game = game;
    return it;
}

/* The object if the call that filled it answered 0, else the error. */
static PyObject *given(void *made, uint32_t answer) {
    if (!made || !answer) return made;
    Py_DECREF((PyObject *)made);
    return refuse(answer, -1);
}

static void forget(PyObject *self) {
    PyTypeObject *type = Py_TYPE(self);
    freefunc release = (freefunc)PyType_GetSlot(type, Py_tp_free);
    release(self);
    Py_DECREF(type);
}

/* The first argument, which has this name, and the game; NULL with an error raised. */
static PyObject *argument(PyObject *words, PyObject *names, const char *first, int *game) {
    char *known[] = {(char *)first, "game", NULL};
    PyObject *data, *name = NULL;
    if (!PyArg_ParseTupleAndKeywords(words, names, "O|O", known, &data, &name)) return NULL;
    return (*game = game_of(name)) < 0 ? NULL : data;
}

/* The bytes of an object that has a buffer, as bytes or an array of numpy; what has none is a
 * TypeError. */
static PyObject *bytes_of(PyObject *data) {
    PyObject *view = data ? PyMemoryView_FromObject(data) : NULL;
    PyObject *made = view ? PyBytes_FromObject(view) : NULL;
    Py_XDECREF(view);
    return made;
}

/* Puts an item into a new list; where there is no item, the list goes. */
static PyObject *with_item(PyObject *list, Py_ssize_t at, PyObject *item) {
    if (!item) Py_CLEAR(list);
    else PyList_SetItem(list, at, item);
    return list;
}

/* Both objects in a tuple if the call that filled them answered 0, else the error. */
static PyObject *pair(void *one, void *other, uint32_t answer) {
    PyObject *made = one && other && !answer ? PyTuple_Pack(2, one, other) : NULL;
    Py_XDECREF((PyObject *)one);
    Py_XDECREF((PyObject *)other);
    return made || !answer ? made : refuse(answer, -1);
}

/* ---- what both have */

static PyObject *get_game(PyObject *self, void *unused) {
    PyObject *it = games[((Board *)self)->game];
    Py_INCREF(it);
    return it;
}

/* How two objects compare: by their games, and then by their bytes. */
static PyObject *compare(PyObject *self, PyObject *other, const void *a, const void *b, size_t size,
                         int how) {
    uint32_t own = ((Board *)self)->game, its = ((Board *)other)->game;
    int order = own == its ? memcmp(a, b, size) : own < its ? -1 : 1;
    Py_RETURN_RICHCOMPARE(order, 0, how);
}

static Py_hash_t mixed(uint32_t game, const void *bytes, size_t size) {
    uint64_t hash = game + 1, word;
    for (size_t at = 0; at < size; at += 4) {
        uint32_t part;
        memcpy(&part, (const char *)bytes + at, 4);
        word = (hash ^ part) * 0x9E3779B97F4A7C15u;
        hash = word ^ word >> 32;
    }
    return hash == (uint64_t)-1 ? -2 : (Py_hash_t)hash;
}

/* ---- passages */

static PyObject *passage_new(PyTypeObject *type, PyObject *words, PyObject *names) {
    int game;
    PyObject *data = bytes_of(argument(words, names, "bytes_", &game));
    if (!data) return NULL;
    fcanon_passage back;
    Passage *made = NULL;
    if (PyBytes_Size(data) != 20) {
        refuse(FCANON_NO_PASSAGE, -1);
    } else if ((made = new_passage(game))) {
        memcpy(&made->passage, PyBytes_AsString(data), 20);
        made = (Passage *)given(made, fcanon_inverse(game, &made->passage, &back));
    }
    Py_DECREF(data);
    return (PyObject *)made;
}

static PyObject *passage_from_bytes(PyObject *type, PyObject *words, PyObject *names) {
    return passage_new(passage_type, words, names);
}

static PyObject *passage_inverse(Passage *self, PyObject *unused) {
    Passage *made = new_passage(self->game);
    return made ? given(made, fcanon_inverse(self->game, &self->passage, &made->passage)) : NULL;
}

static PyObject *passage_then(Passage *self, PyObject *next) {
    if (Py_TYPE(next) != passage_type) {
        PyErr_SetString(PyExc_TypeError, "then takes a Passage");
        return NULL;
    }
    Passage *onward = (Passage *)next;
    if (self->game != onward->game) return refuse(FCANON_NO_PASSAGE, -1);
    Passage *made = new_passage(self->game);
    if (!made) return NULL;
    return given(made, fcanon_then(self->game, &self->passage, &onward->passage, &made->passage));
}

static PyObject *passage_image(Passage *self, PyObject *of) {
    if (Py_TYPE(of) != board_type) {
        PyErr_SetString(PyExc_TypeError, "image takes a Board");
        return NULL;
    }
    Board *board = (Board *)of;
    if (self->game != board->game) return refuse(FCANON_NO_BOARD, -1);
    Board *made = new_board(self->game);
    if (!made) return NULL;
    return given(made, fcanon_image(self->game, &self->passage, &board->board, &made->board));
}

static PyObject *passage_carry(Passage *self, PyObject *move) {
    fcanon_run_move run;
    if (!run_of(move, 2, &run)) return NULL;
    fcanon_move one = {run.from, run.to};
    uint32_t answer = fcanon_carry(self->game, &self->passage, &one);
    return answer ? refuse(answer, -1) : text_of_move(one);
}

static PyObject *passage_carry_run(Passage *self, PyObject *move) {
    fcanon_run_move run;
    if (!run_of(move, 4, &run)) return NULL;
    uint32_t answer = fcanon_carry_run(self->game, &self->passage, &run);
    return answer ? refuse(answer, -1) : text_of_run(run);
}

static PyObject *passage_bytes(Passage *self, PyObject *unused) {
    return PyBytes_FromStringAndSize((const char *)&self->passage, 20);
}

static PyObject *passage_reduce(Passage *self, PyObject *unused) {
    return Py_BuildValue("O(y#O)", passage_type, &self->passage, (Py_ssize_t)20, games[self->game]);
}

static PyObject *passage_compare(PyObject *self, PyObject *other, int how) {
    if (Py_TYPE(other) != passage_type) Py_RETURN_NOTIMPLEMENTED;
    return compare(self, other, &((Passage *)self)->passage, &((Passage *)other)->passage, 20, how);
}

static Py_hash_t passage_hash(Passage *self) { return mixed(self->game, &self->passage, 20); }

static PyObject *passage_str(Passage *self) {
    char text[64] = "renaming CDHS columns 12345678 cells ";
    int cells = cell_counts[self->game];
    for (int i = 0; i < 4; i++) text[9 + i] = "CDHS"[self->passage.suits[i]];
    for (int i = 0; i < 8; i++) text[22 + i] = (char)('1' + self->passage.columns[i]);
    for (int i = 0; i < cells; i++) text[37 + i] = "abcdefgk"[self->passage.cells[i]];
    return PyUnicode_FromString(text);
}

static PyObject *passage_repr(Passage *self) { return PyUnicode_FromFormat("<Passage %S>", self); }

/* ---- boards */

static PyObject *board_new(PyTypeObject *type, PyObject *words, PyObject *names) {
    int game;
    PyObject *text = argument(words, names, "text", &game);
    if (!text) return NULL;
    PyObject *data = PyUnicode_Check(text) ? PyUnicode_AsUTF8String(text) : bytes_of(text);
    Board *made = data ? new_board(game) : NULL;
    if (made) {
        size_t place = 0, length = (size_t)PyBytes_Size(data);
        uint32_t answer = fcanon_read(game, PyBytes_AsString(data), length, &made->board, &place);
        if (answer) {
            Py_DECREF((PyObject *)made);
            made = refuse(answer, answer >= 64 ? (Py_ssize_t)place : -1);
        }
    }
    Py_XDECREF(data);
    return (PyObject *)made;
}

static PyObject *board_deal(PyObject *type, PyObject *words, PyObject *names) {
    char *known[] = {"number", "game", NULL};
    PyObject *name = NULL, *wanted;
    if (!PyArg_ParseTupleAndKeywords(words, names, "O!|O", known, &PyLong_Type, &wanted, &name))
        return NULL;
    int game = game_of(name), is_over;
    long long number = PyLong_AsLongLongAndOverflow(wanted, &is_over);
    if (is_over || number < 0 || number > UINT32_MAX) number = 0; /* which is no deal either */
    Board *made = game < 0 ? NULL : new_board(game);
    return made ? given(made, fcanon_deal(game, (uint32_t)number, &made->board)) : NULL;
}

static PyObject *board_from_bytes(PyObject *type, PyObject *words, PyObject *names) {
    int game;
    PyObject *data = bytes_of(argument(words, names, "bytes_", &game));
    if (!data) return NULL;
    Board *made = NULL;
    uint32_t cards;
    if (PyBytes_Size(data) != 72) {
        refuse(FCANON_NO_BOARD, -1);
    } else if ((made = new_board(game))) {
        memcpy(&made->board, PyBytes_AsString(data), 72);
        made = (Board *)given(made, fcanon_capacity(game, &made->board, '1', &cards));
    }
    Py_DECREF(data);
    return (PyObject *)made;
}

static PyObject *board_canonical(Board *self, PyObject *unused) {
    Board *made = new_board(self->game);
    return made ? given(made, fcanon_key(self->game, &self->board, &made->board)) : NULL;
}

static PyObject *board_canonical_hash(Board *self, PyObject *unused) {
    uint8_t hash[16];
    uint32_t answer = fcanon_hash(self->game, &self->board, hash);
    return answer ? refuse(answer, -1) : PyBytes_FromStringAndSize((const char *)hash, 16);
}

static PyObject *board_canonicalize(Board *self, PyObject *unused) {
    Board *made = new_board(self->game);
    Passage *way = new_passage(self->game);
    uint32_t answer = 0;
    if (made && way) answer = fcanon_canon(self->game, &self->board, &made->board, &way->passage);
    return pair(made, way, answer);
}

static PyObject *board_child(Board *self, PyObject *move) {
    fcanon_run_move run;
    if (!run_of(move, 2, &run)) return NULL;
    Board *made = new_board(self->game);
    Passage *way = new_passage(self->game);
    fcanon_move one = {run.from, run.to};
    uint32_t answer = 0;
    if (made && way)
        answer = fcanon_child(self->game, &self->board, &one, &made->board, &way->passage);
    return pair(made, way, answer);
}

static PyObject *board_moves(Board *self, PyObject *unused) {
    fcanon_move moves[FCANON_MOST_CHILDREN];
    size_t count = 0;
    uint32_t answer =
        fcanon_moves(self->game, &self->board, moves, FCANON_MOST_CHILDREN, &count);
    if (answer) return refuse(answer, -1);
    PyObject *made = PyList_New((Py_ssize_t)count);
    for (size_t i = 0; made && i < count; i++)
        made = with_item(made, (Py_ssize_t)i, text_of_move(moves[i]));
    return made;
}

static PyObject *board_run_moves(Board *self, PyObject *unused) {
    fcanon_run_move runs[FCANON_MOST_RUN_MOVES];
    size_t count = 0;
    uint32_t answer =
        fcanon_run_moves(self->game, &self->board, runs, FCANON_MOST_RUN_MOVES, &count);
    if (answer) return refuse(answer, -1);
    PyObject *made = PyList_New((Py_ssize_t)count);
    for (size_t i = 0; made && i < count; i++)
        made = with_item(made, (Py_ssize_t)i, text_of_run(runs[i]));
    return made;
}

static PyObject *board_children(Board *self, PyObject *unused) {
    fcanon_move moves[FCANON_MOST_CHILDREN];
    fcanon_board keys[FCANON_MOST_CHILDREN];
    size_t count = 0;
    uint32_t answer = fcanon_children(self->game, &self->board, moves, FCANON_MOST_CHILDREN, keys,
                                      FCANON_MOST_CHILDREN, &count);
    if (answer) return refuse(answer, -1);
    PyObject *made = PyList_New((Py_ssize_t)count);
    for (size_t i = 0; made && i < count; i++) {
        PyObject *move = text_of_move(moves[i]);
        Board *child = new_board(self->game);
        if (child) child->board = keys[i];
        made = with_item(made, (Py_ssize_t)i, pair(move, child, FCANON_DONE));
    }
    return made;
}

static PyObject *board_symmetries(Board *self, PyObject *unused) {
    uint8_t suits[24][4];
    uint32_t count = 0, answer = fcanon_symmetries(self->game, &self->board, suits, &count);
    if (answer) return refuse(answer, -1);
    PyObject *made = PyList_New(count);
    for (uint32_t i = 0; made && i < count; i++) {
        char name[5] = {0};
        for (int suit = 0; suit < 4; suit++) name[suit] = "CDHS"[suits[i][suit]];
        made = with_item(made, i, PyUnicode_FromString(name));
    }
    return made;
}

static PyObject *boards_of(PyObject *data);

static PyObject *board_is_unsolvable(Board *self, PyObject *keys) {
    PyObject *data = boards_of(keys);
    if (!data) return NULL;
    const fcanon_board *boards = (const fcanon_board *)PyBytes_AsString(data);
    size_t count = (size_t)PyBytes_Size(data) / 72;
    uint32_t answer;
    Py_BEGIN_ALLOW_THREADS
    answer = fcanon_unsolvable(self->game, &self->board, boards, count);
    Py_END_ALLOW_THREADS
    Py_DECREF(data);
    if (answer == FCANON_NOT_CLOSED || answer == FCANON_NOT_AMONG) Py_RETURN_FALSE;
    if (answer) return refuse(answer, -1);
    Py_RETURN_TRUE;
}

static PyObject *board_passage_to(Board *self, PyObject *other) {
    if (Py_TYPE(other) != board_type) {
        PyErr_SetString(PyExc_TypeError, "passage_to takes a Board");
        return NULL;
    }
    Board *to = (Board *)other;
    if (self->game != to->game) Py_RETURN_NONE;
    fcanon_passage passage;
    uint32_t answer = fcanon_same(self->game, &self->board, &to->board, &passage);
    if (answer == FCANON_APART) Py_RETURN_NONE;
    if (answer) return refuse(answer, -1);
    Passage *made = new_passage(self->game);
    if (made) made->passage = passage;
    return (PyObject *)made;
}

static PyObject *board_play(Board *self, PyObject *move) {
    fcanon_run_move run;
    if (!run_of(move, 2, &run)) return NULL;
    Board *made = new_board(self->game);
    if (!made) return NULL;
    fcanon_move one = {run.from, run.to};
    made->board = self->board;
    return given(made, fcanon_play(self->game, &made->board, &one));
}

static PyObject *board_play_run(Board *self, PyObject *move) {
    fcanon_run_move run;
    if (!run_of(move, 4, &run)) return NULL;
    Board *made = new_board(self->game);
    if (!made) return NULL;
    made->board = self->board;
    return given(made, fcanon_play_run(self->game, &made->board, &run));
}

static PyObject *board_expand(Board *self, PyObject *move) {
    fcanon_run_move run;
    fcanon_move moves[FCANON_MOST_MOVES];
    size_t count = 0;
    if (!run_of(move, 4, &run)) return NULL;
    uint32_t answer =
        fcanon_expand(self->game, &self->board, &run, moves, FCANON_MOST_MOVES, &count);
    if (answer) return refuse(answer, -1);
    PyObject *made = PyList_New((Py_ssize_t)count);
    for (size_t i = 0; made && i < count; i++)
        made = with_item(made, (Py_ssize_t)i, text_of_move(moves[i]));
    return made;
}

static PyObject *board_capacity(Board *self, PyObject *column) {
    long number = PyLong_AsLong(column);
    uint32_t cards = 0;
    if (number == -1 && PyErr_Occurred()) return NULL;
    uint8_t digit = 1 <= number && number <= 8 ? (uint8_t)('0' + number) : 0;
    uint32_t answer = fcanon_capacity(self->game, &self->board, digit, &cards);
    return answer ? refuse(answer, -1) : PyLong_FromUnsignedLong(cards);
}

static PyObject *board_is_won(Board *self, void *unused) {
    return PyBool_FromLong(fcanon_is_won(&self->board));
}

static PyObject *board_bytes(Board *self, PyObject *unused) {
    return PyBytes_FromStringAndSize((const char *)&self->board, 72);
}

static PyObject *board_reduce(Board *self, PyObject *unused) {
    PyObject *maker = PyObject_GetAttrString((PyObject *)board_type, "from_bytes");
    if (!maker) return NULL;
    return Py_BuildValue("N(y#O)", maker, &self->board, (Py_ssize_t)72, games[self->game]);
}

static PyObject *board_compare(PyObject *self, PyObject *other, int how) {
    if (Py_TYPE(other) != board_type) Py_RETURN_NOTIMPLEMENTED;
    return compare(self, other, &((Board *)self)->board, &((Board *)other)->board, 72, how);
}

static Py_hash_t board_hash(Board *self) { return mixed(self->game, &self->board, 72); }

static PyObject *board_str(Board *self) {
    char text[256];
    uint32_t answer = fcanon_write(self->game, &self->board, text);
    return answer ? refuse(answer, -1) : PyUnicode_FromString(text);
}

static PyObject *board_repr(Board *self) {
    PyObject *text = board_str(self), *made = NULL;
    if (text) made = PyUnicode_FromFormat("Board(%R, %R)", text, games[self->game]);
    Py_XDECREF(text);
    return made;
}

/* ---- many boards */

/* Whether an array of this shape has the bytes of boards: 72 each, one after another or in the last
 * dimension. */
static int fits_boards(PyObject *shape) {
    Py_ssize_t dimensions = PyTuple_Size(shape);
    if (dimensions < 1) return 0;
    Py_ssize_t last = PyLong_AsSsize_t(PyTuple_GetItem(shape, dimensions - 1));
    return dimensions == 1 ? last % 72 == 0 : last == 72;
}

/* The bytes of boards in an object that has a buffer; NULL with an error raised. */
static PyObject *boards_of(PyObject *data) {
    PyObject *view = data ? PyMemoryView_FromObject(data) : NULL;
    PyObject *shape = view ? PyObject_GetAttrString(view, "shape") : NULL;
    PyObject *size = view ? PyObject_GetAttrString(view, "itemsize") : NULL;
    PyObject *made = NULL;
    if (shape && size && PyLong_AsLong(size) != 1)
        PyErr_Format(PyExc_ValueError, "boards are bytes, not items of %S bytes", size);
    else if (shape && size && !fits_boards(shape))
        PyErr_Format(PyExc_ValueError, "boards have the shape (72 * n,) or (n, 72), not %S", shape);
    else if (shape && size)
        made = PyBytes_FromObject(view);
    Py_XDECREF(view);
    Py_XDECREF(shape);
    Py_XDECREF(size);
    return made;
}

static PyObject *canonicalize_all(PyObject *module, PyObject *words, PyObject *names) {
    int game;
    PyObject *data = boards_of(argument(words, names, "boards", &game));
    if (!data) return NULL;
    Py_ssize_t size = PyBytes_Size(data);
    PyObject *made = PyBytes_FromStringAndSize(NULL, size);
    if (made) {
        fcanon_board *boards = (fcanon_board *)PyBytes_AsString(made);
        size_t place = 0;
        uint32_t answer;
        memcpy(boards, PyBytes_AsString(data), (size_t)size);
        Py_BEGIN_ALLOW_THREADS
        answer = fcanon_keys(game, boards, (size_t)size / 72, &place);
        Py_END_ALLOW_THREADS
        if (answer) {
            Py_CLEAR(made);
            refuse(answer, (Py_ssize_t)place);
        }
    }
    Py_DECREF(data);
    return made;
}

static PyObject *canonicalize_all_with_passages(PyObject *module, PyObject *words,
                                                PyObject *names) {
    int game;
    PyObject *data = boards_of(argument(words, names, "boards", &game));
    if (!data) return NULL;
    Py_ssize_t count = PyBytes_Size(data) / 72, at = 0;
    PyObject *keys = PyBytes_FromStringAndSize(NULL, 72 * count);
    PyObject *ways = PyBytes_FromStringAndSize(NULL, 20 * count);
    uint32_t answer = FCANON_DONE;
    if (keys && ways) {
        const fcanon_board *boards = (const fcanon_board *)PyBytes_AsString(data);
        fcanon_board *canonical = (fcanon_board *)PyBytes_AsString(keys);
        fcanon_passage *passages = (fcanon_passage *)PyBytes_AsString(ways);
        Py_BEGIN_ALLOW_THREADS
        for (; at < count && !answer; at++)
            answer = fcanon_canon(game, boards + at, canonical + at, passages + at);
        Py_END_ALLOW_THREADS
    }
    Py_DECREF(data);
    PyObject *both = keys && ways && !answer ? PyTuple_Pack(2, keys, ways) : NULL;
    Py_XDECREF(keys);
    Py_XDECREF(ways);
    return answer ? refuse(answer, at - 1) : both;
}

/* What a call gives of each board, so many bytes. */
static PyObject *of_each_board(PyObject *words, PyObject *names, Py_ssize_t size,
                               uint32_t (*call)(uint32_t, const fcanon_board *, uint8_t *)) {
    int game;
    PyObject *data = boards_of(argument(words, names, "boards", &game));
    if (!data) return NULL;
    Py_ssize_t count = PyBytes_Size(data) / 72, at = 0;
    PyObject *made = PyBytes_FromStringAndSize(NULL, size * count);
    uint32_t answer = FCANON_DONE;
    if (made) {
        const fcanon_board *boards = (const fcanon_board *)PyBytes_AsString(data);
        uint8_t *given = (uint8_t *)PyBytes_AsString(made);
        Py_BEGIN_ALLOW_THREADS
        for (; at < count && !answer; at++) answer = call(game, boards + at, given + size * at);
        Py_END_ALLOW_THREADS
    }
    Py_DECREF(data);
    if (!answer) return made;
    Py_DECREF(made);
    return refuse(answer, at - 1);
}

static PyObject *hash_all(PyObject *module, PyObject *words, PyObject *names) {
    return of_each_board(words, names, 16, fcanon_hash);
}

static PyObject *find_flaw(PyObject *module, PyObject *words, PyObject *names) {
    int game;
    PyObject *data = boards_of(argument(words, names, "keys", &game));
    if (!data) return NULL;
    const fcanon_board *keys = (const fcanon_board *)PyBytes_AsString(data);
    size_t count = (size_t)PyBytes_Size(data) / 72, place = 0;
    fcanon_move move;
    uint32_t answer;
    Py_BEGIN_ALLOW_THREADS
    answer = fcanon_closed(game, keys, count, &place, &move);
    Py_END_ALLOW_THREADS
    Py_DECREF(data);
    if (!answer) Py_RETURN_NONE;
    if (answer != FCANON_OPEN) return Py_BuildValue("(InO)", answer, (Py_ssize_t)place, Py_None);
    return Py_BuildValue("(Ins#)", answer, (Py_ssize_t)place, (const char *)&move, (Py_ssize_t)2);
}

/* ---- the module */

static PyObject *set_error(PyObject *module, PyObject *it) {
    Py_INCREF(it);
    error_class = it;
    Py_RETURN_NONE;
}

static PyObject *words_of(PyObject *module, PyObject *number) {
    unsigned long answer = PyLong_AsUnsignedLongMask(number);
    if (PyErr_Occurred()) return NULL;
    const char *text = fcanon_answer_text((uint32_t)answer);
    uint8_t missing = fcanon_missing_card((uint32_t)answer);
    char card[3];
    if (!missing) return PyUnicode_FromString(text);
    fcanon_card_text(missing, card);
    return PyUnicode_FromFormat("%s %s", text, card);
}

#define BY_NAME (METH_VARARGS | METH_KEYWORDS)
#define NAMELESS(name, function, how, words) {name, (PyCFunction)(void (*)(void))function, how, words}
/* One with what it takes, as inspect.signature shows it. */
#define METHOD(name, function, how, takes, words) NAMELESS(name, function, how, name takes "\n--\n\n" words)

static PyMethodDef passage_methods[] = {
    METHOD("from_bytes", passage_from_bytes, BY_NAME | METH_CLASS, "($type, bytes_, game='freecell')",
           "The passage of these 20 bytes, which fcanon.h describes."),
    METHOD("inverse", passage_inverse, METH_NOARGS, "($self, /)",
           "The passage that leads back."),
    METHOD("then", passage_then, METH_O, "($self, next, /)",
           "This passage, and then the next one of the same game."),
    METHOD("image", passage_image, METH_O, "($self, board, /)",
           "The board that the passage leads to from a board."),
    METHOD("carry", passage_carry, METH_O, "($self, move, /)",
           "The move of the same card on the board that the passage leads to."),
    METHOD("carry_run", passage_carry_run, METH_O, "($self, run, /)",
           "The move of the same cards on the board that the passage leads to."),
    METHOD("__bytes__", passage_bytes, METH_NOARGS, "($self, /)",
           "The 20 bytes, which fcanon.h describes."),
    NAMELESS("__reduce__", passage_reduce, METH_NOARGS, NULL),
    {0}};

static PyMethodDef board_methods[] = {
    METHOD("deal", board_deal, BY_NAME | METH_CLASS, "($type, number, game='freecell')",
           "One of Microsoft's numbered deals, of FreeCell or Baker's Game."),
    METHOD("from_bytes", board_from_bytes, BY_NAME | METH_CLASS, "($type, bytes_, game='freecell')",
           "The board of these 72 bytes, which fcanon.h describes."),
    METHOD("canonical", board_canonical, METH_NOARGS, "($self, /)",
           "The canonical board of all that are equivalent to this one."),
    METHOD("canonical_hash", board_canonical_hash, METH_NOARGS, "($self, /)",
           "A hash of the canonical board in 16 bytes, the same in each run and on each machine."),
    METHOD("canonicalize", board_canonicalize, METH_NOARGS, "($self, /)",
           "The canonical board, and the passage to it."),
    METHOD("child", board_child, METH_O, "($self, move, /)",
           "The canonical board of the board after a move of one card, and the passage to it."),
    METHOD("moves", board_moves, METH_NOARGS, "($self, /)",
           "The moves of one card that the game allows."),
    METHOD("run_moves", board_run_moves, METH_NOARGS, "($self, /)",
           "The moves of two and more cards that the game allows, each with its number of cards."),
    METHOD("children", board_children, METH_NOARGS, "($self, /)",
           "The moves of one card that the game allows, each with the canonical board after it."),
    METHOD("symmetries", board_symmetries, METH_NOARGS, "($self, /)",
           "The renamings that with some orders lead from the board to itself, from \"CDHS\" on."),
    METHOD("is_unsolvable", board_is_unsolvable, METH_O, "($self, keys, /)",
           "Whether keys of a closed list show that no list of moves wins from the board."),
    METHOD("passage_to", board_passage_to, METH_O, "($self, other, /)",
           "The passage to another board, or None if that is not equivalent."),
    METHOD("play", board_play, METH_O, "($self, move, /)",
           "The board after a move of one card."),
    METHOD("play_run", board_play_run, METH_O, "($self, run, /)",
           "The board after a move of several cards."),
    METHOD("expand", board_expand, METH_O, "($self, run, /)",
           "The moves of one card that do what a move of several does."),
    METHOD("capacity", board_capacity, METH_O, "($self, column, /)",
           "How many cards can go at once to a column, 1 to 8."),
    METHOD("__bytes__", board_bytes, METH_NOARGS, "($self, /)",
           "The 72 bytes, which fcanon.h describes."),
    NAMELESS("__reduce__", board_reduce, METH_NOARGS, NULL),
    {0}};

static PyGetSetDef passage_fields[] = {
    {"game", get_game, NULL, "The game, one of GAMES.", NULL},
    {0}};
static PyGetSetDef board_fields[] = {
    {"game", get_game, NULL, "The game, one of GAMES.", NULL},
    {"is_won", (getter)board_is_won, NULL, "Whether all cards are home.", NULL},
    {0}};

static PyType_Slot passage_slots[] = {
    {Py_tp_doc, "Passage(bytes_, game='freecell')\n--\n\n"
                "A way from one board to another: a renaming of suits, and orders of piles."},
    {Py_tp_new, passage_new},
    {Py_tp_dealloc, forget},
    {Py_tp_methods, passage_methods},
    {Py_tp_getset, passage_fields},
    {Py_tp_richcompare, passage_compare},
    {Py_tp_hash, passage_hash},
    {Py_tp_str, passage_str},
    {Py_tp_repr, passage_repr},
    {0}};
static PyType_Slot board_slots[] = {
    {Py_tp_doc, "Board(text, game='freecell')\n--\n\n"
                "A board of a game, on which each of the 52 cards is once. It never changes."},
    {Py_tp_new, board_new},
    {Py_tp_dealloc, forget},
    {Py_tp_methods, board_methods},
    {Py_tp_getset, board_fields},
    {Py_tp_richcompare, board_compare},
    {Py_tp_hash, board_hash},
    {Py_tp_str, board_str},
    {Py_tp_repr, board_repr},
    {0}};
static PyType_Spec passage_spec = {
    "fcanon.Passage", sizeof(Passage), 0, Py_TPFLAGS_DEFAULT, passage_slots};
static PyType_Spec board_spec = {"fcanon.Board", sizeof(Board), 0, Py_TPFLAGS_DEFAULT, board_slots};

static PyMethodDef functions[] = {
    METHOD("canonicalize_all", canonicalize_all, BY_NAME, "($module, boards, game='freecell')",
           "The bytes of the canonical boards of boards, of which each is 72 bytes.\n\n"
           "The Error has as its place which of them is none, from 0. Of an array with several\n"
           "dimensions the last must have 72 bytes."),
    METHOD("canonicalize_all_with_passages", canonicalize_all_with_passages, BY_NAME, "($module, boards, game='freecell')",
           "The same, and with it the bytes of the passages to them, of which each is 20 bytes."),
    METHOD("hash_all", hash_all, BY_NAME, "($module, boards, game='freecell')",
           "The canonical hashes of boards, each in 16 bytes, of boards of 72 bytes."),
    METHOD("find_flaw", find_flaw, BY_NAME, "($module, keys, game='freecell')",
           "None where keys of 72 bytes are those of a closed list, from whose boards no list of moves\n"
           "wins; else an Answer, which key, and for Answer.OPEN the move that leads out, or None."),
    NAMELESS("set_error", set_error, METH_O, NULL),
    NAMELESS("words_of", words_of, METH_O, NULL),
    {0}};
static struct PyModuleDef definition = {
    PyModuleDef_HEAD_INIT, "fcanon._calls", NULL, -1, functions};

/* Makes a type, and adds it to the module under this name; 0 with an error raised. */
static PyTypeObject *type_in(PyObject *module, const char *name, PyType_Spec *spec) {
    PyObject *type = PyType_FromSpec(spec);
    if (!type) return NULL;
    Py_INCREF(type); /* one for the module, and one for this file */
    if (!PyModule_AddObject(module, name, type)) return (PyTypeObject *)type;
    Py_DECREF(type);
    Py_DECREF(type);
    return NULL;
}

PyMODINIT_FUNC PyInit__calls(void) {
    PyObject *module = PyModule_Create(&definition);
    if (!module) return NULL;
    int are_named = 1;
    for (int game = 0; game < GAMES; game++)
        are_named &= (games[game] = PyUnicode_InternFromString(game_names[game])) != NULL;
    board_type = type_in(module, "Board", &board_spec);
    passage_type = board_type ? type_in(module, "Passage", &passage_spec) : NULL;
    if (are_named && passage_type &&
        !PyModule_AddStringConstant(module, "__version__", FCANON_RELEASE))
        return module;
    Py_DECREF(module);
    return NULL;
}
