/* The label resolver's calls for C99, C++11 and later; link libcapi.a (`rt lib` in crates/capi).
 *
 * PLAIN CALLS. A slice is a pointer and a length in words. The store comes first: the state's words (counts of terms, cells, characters,
 * reasons and keys, the name counter, counts of marks and of recorded joins), then the five slices. The result is 0 or the refusal's number;
 * the state is written on success alone. `answer` has eight words. A state under six or an answer under eight words is refusal 1. Joining,
 * marks and going back ask for a state of eight words; the other calls look at six and leave the rest alone. Each call audits the store first,
 * and after result 0 the store passes, and marks that passed pass still: calls can be made one after the other, with no labels_audit between.
 *
 * THE INDEX. Words 0 to 63 of the terms' slice are the heads of 64 buckets; the record of term t comes at 64 + 9 t, and its ninth word is the
 * next term of its bucket. 0 ends a chain, and each chain ascends. The bucket of a term is the remainder by 64 of its kind plus all its
 * characters or all its parts' numbers. A store of no terms has 64 heads of 0 (`labels_clear_heads`). The calls keep the index: a new term
 * goes to the end of its chain, and a call that is refused while it works takes its terms out again. Heads or ninth words that are not those
 * of the counted terms are refused (12). So the count of terms cannot be put back to undo a call: heads and chains would name terms that are
 * not counted any more. A refused call leaves nothing to undo; to take back the terms that an answered call appended is not offered yet.
 *
 * A STORE. `labels_store` keeps all of that together, and each plain call has a `labels_store_..` beside it that takes the store and its own
 * arguments alone. They are written in C below and only pass words on; what is proved is the plain call behind each.
 *
 * What the caller owes, and no call can test: each pointer is valid for its length, for reading and, without `const`, for writing, and
 * aligned for `uint32_t`; the slices of a call are pairwise apart (two that the call only reads may be one); and until the call returns
 * nothing else writes them, or reads those that it may write. Where slices overlap a call can answer 0 and leave a broken store.
 *
 * A null pointer with length 0 is an empty slice: tried on x86-64 Linux for every slice of every call (bindings/c/null.c), and each call
 * answers and writes as it does for any other empty slice. A null pointer with another length is the caller's error.
 *
 * Stack: 192 KiB have to be free when a call is made. A tower of 506 congruences, which passes the audit, was measured to take 175,432
 * bytes. The component's own calls make no congruences; without any the worst that was tried, the step on 508 concatenations within each
 * other, took 88,000. No call uses the heap or data of its own, so calls on stores that share no words may run at the same time.
 */
#ifndef LABELS_H
#define LABELS_H

#include <stddef.h>
#include <stdint.h>

#ifdef __cplusplus
extern "C" {
#endif

/* The version of this header, of the Rust crate and of CHANGELOG.md. */
#define LABELS_VERSION "0.10.0"
#define LABELS_VERSION_MAJOR 0
#define LABELS_VERSION_MINOR 10
#define LABELS_VERSION_PATCH 0

/* The limits of the counts. */
#define LABELS_MAX_TERMS 512
#define LABELS_MAX_CELLS 2048
#define LABELS_MAX_CHARS 16384
#define LABELS_MAX_REASONS 4096
#define LABELS_MAX_KEYS 4096
#define LABELS_MAX_MARKS 64
#define LABELS_MAX_JOINS 511

/* The highest character. Those of a constant and of a name are SMT-LIB's, 0 to this, the surrogates 0xD800 to 0xDFFF among them; two surrogates
 * are two characters. One above is refused: 5 in a making call, 2 in a lent store. */
#define LABELS_MAX_CHARACTER 0x2FFFF

/* The words of a term, of a cell, and of a pair: a reason or a key. A character has one. */
#define LABELS_TERM_WIDTH 9
#define LABELS_CELL_WIDTH 3
#define LABELS_PAIR_WIDTH 2

/* The heads of the index, which stand in the terms' slice before record 0. */
#define LABELS_BUCKETS 64

/* Where a word of term t stands in the terms' slice, the word by its number in the record. */
#define LABELS_TERM_PLACE(t, word) ((size_t)LABELS_BUCKETS + (size_t)LABELS_TERM_WIDTH * (size_t)(t) + (size_t)(word))

/* The words of each slice at its limit; a shorter slice has less room, and a longer one no more. Terms and cells have a record 0 that takes
 * room and is never read or written. */
#define LABELS_TERM_WORDS (LABELS_BUCKETS + LABELS_TERM_WIDTH * (LABELS_MAX_TERMS + 1))
#define LABELS_CELL_WORDS (LABELS_CELL_WIDTH * (LABELS_MAX_CELLS + 1))
#define LABELS_CHAR_WORDS LABELS_MAX_CHARS
#define LABELS_REASON_WORDS (LABELS_PAIR_WIDTH * LABELS_MAX_REASONS)
#define LABELS_KEY_WORDS (LABELS_PAIR_WIDTH * LABELS_MAX_KEYS)

/* The least that the calls ask of these: words of the state (six where nothing is joined or marked), of an answer, of a list that a call
 * fills, of the marks (a word for each of 64 marks, three for each of 511 joins). */
#define LABELS_STATE_WORDS 8
#define LABELS_ANSWER_WORDS 8
#define LABELS_LIST_WORDS 1024
#define LABELS_MARK_WORDS 1597

/* The most terms that a Split makes: over two heads, and over a character. Word 3 of its answer says how many it made. */
#define LABELS_MAX_SPLIT_TERMS 9
#define LABELS_MAX_CHARACTER_SPLIT_TERMS 6

/* The words of the state. */
enum labels_count {
    LABELS_COUNT_TERMS = 0,
    LABELS_COUNT_CELLS = 1,
    LABELS_COUNT_CHARS = 2,
    LABELS_COUNT_REASONS = 3,
    LABELS_COUNT_KEYS = 4,
    LABELS_COUNT_NAMES = 5, /* the name counter */
    LABELS_COUNT_MARKS = 6,
    LABELS_COUNT_JOINS = 7
};

/* The words of a term's record. */
enum labels_term_word {
    LABELS_TERM_KIND = 0,
    LABELS_TERM_FIRST = 1,
    LABELS_TERM_SECOND = 2,
    LABELS_TERM_CLASS_PARENT = 3,
    LABELS_TERM_FOREST_PARENT = 4,
    LABELS_TERM_LABEL_KIND = 5,
    LABELS_TERM_LABEL_VALUE = 6,
    LABELS_TERM_STAMP = 7,
    LABELS_TERM_NEXT = 8 /* the next term of its bucket, or 0 */
};

/* The kinds of a reason, the first of its two words; the second is its number, below 2^31. */
enum labels_reason_kind { LABELS_ASSERTED = 1, LABELS_INTERFACE = 2 };

/* The cases of an answer, which `labels_resolve_equation` and `labels_step` put into word 0; the last is of the step alone. Done says that
 * nothing is to be done as the classes stand, not that the sides are equal: ask again once a class of their terms has changed. */
enum labels_case {
    LABELS_DONE = 0,
    LABELS_SATURATED = 1,
    LABELS_CONFLICT = 2,
    LABELS_PROPAGATE = 3,
    LABELS_SPLIT = 4,
    LABELS_UNEXPANDED = 5
};

/* The other words of an answer: of Propagate the variable, a term that has its word and the link flag; of Split the count of its atoms, its
 * guard and how many terms it made. */
enum labels_answer_word {
    LABELS_ANSWER_CASE = 0,
    LABELS_ANSWER_VARIABLE = 1,
    LABELS_ANSWER_WORD = 2,
    LABELS_ANSWER_LINK = 3,
    LABELS_ANSWER_ATOMS = 1,
    LABELS_ANSWER_GUARD = 2,
    LABELS_ANSWER_TERMS_MADE = 3
};

/* The words of `labels_empty_parts`' answer: how many variables are listed, the number of "", the link flag. */
enum labels_parts_word { LABELS_PARTS_COUNT = 0, LABELS_PARTS_EMPTY = 1, LABELS_PARTS_LINK = 2 };

/* The words of `labels_forced_length`'s answer: which case it is; k, c and l; m and r, or the shortage and 0. */
enum labels_fit_word {
    LABELS_FIT_CASE = 0,
    LABELS_FIT_VARIABLES = 1,
    LABELS_FIT_CONSTANT = 2,
    LABELS_FIT_AGAINST = 3,
    LABELS_FIT_LENGTH = 4,
    LABELS_FIT_REST = 5,
    LABELS_FIT_SHORTAGE = 4
};

/* Its cases: m and r, or a shortage. */
enum labels_fit_case { LABELS_FIT_SPANS = 0, LABELS_FIT_SHORT = 1 };

/* Why a call was refused. After 1 to 5 and from 10 on no word of any slice is written; after the others the counts, every counted record and
 * the heads are as they were. 12 is due after 4 and before 5. */
enum labels_refusal {
    LABELS_ACCEPTED = 0,
    LABELS_REFUSED_SIZES = 1,
    LABELS_REFUSED_RECORDS = 2,
    LABELS_REFUSED_CLASSES = 3,
    LABELS_REFUSED_CONGRUENCES = 4,
    LABELS_REFUSED_ARGUMENT = 5,
    LABELS_REFUSED_LIST = 6,
    LABELS_REFUSED_REASONS = 7,
    LABELS_REFUSED_ROOM = 8,
    LABELS_REFUSED_NAMES = 9,
    LABELS_REFUSED_MARK = 10,
    LABELS_REFUSED_FORM = 11,
    LABELS_REFUSED_INDEX = 12
};

/* A refusal's text, never null. */
static inline const char *labels_refusal_text(uint32_t refusal) {
    switch (refusal) {
    case LABELS_ACCEPTED:
        return "not refused";
    case LABELS_REFUSED_SIZES:
        return "a count above its limit, or a slice too short";
    case LABELS_REFUSED_RECORDS:
        return "a record that breaks its rule";
    case LABELS_REFUSED_CLASSES:
        return "classes and forest do not agree, or would not after going back to a mark";
    case LABELS_REFUSED_CONGRUENCES:
        return "a congruence that its parts do not give";
    case LABELS_REFUSED_ARGUMENT:
        return "a wrong argument";
    case LABELS_REFUSED_LIST:
        return "a flattened list above 1,024 atoms";
    case LABELS_REFUSED_REASONS:
        return "no room for the next reason";
    case LABELS_REFUSED_ROOM:
        return "no room for a term, a cell, a character or a key";
    case LABELS_REFUSED_NAMES:
        return "no name left";
    case LABELS_REFUSED_MARK:
        return "a mark that is not standing, or a 65th";
    case LABELS_REFUSED_FORM:
        return "no side of constants against one variable class";
    case LABELS_REFUSED_INDEX:
        return "a head or a chain of the index that the terms do not give";
    default:
        return "a refusal that no call gives";
    }
}

/* The name of an answer's case, never null. */
static inline const char *labels_case_text(uint32_t answer_case) {
    switch (answer_case) {
    case LABELS_DONE:
        return "done";
    case LABELS_SATURATED:
        return "saturated";
    case LABELS_CONFLICT:
        return "conflict";
    case LABELS_PROPAGATE:
        return "propagate";
    case LABELS_SPLIT:
        return "split";
    case LABELS_UNEXPANDED:
        return "unexpanded";
    default:
        return "an answer that no call gives";
    }
}

#define LABELS_WORDS(name) uint32_t *name, size_t name##_len
#define LABELS_READ(name) const uint32_t *name, size_t name##_len

/* An array and its length in words, as a slice is lent. */
#define LABELS_LEND(words) words, sizeof(words) / sizeof *(words)

uint32_t labels_audit(LABELS_READ(state), LABELS_READ(terms), LABELS_READ(cells), LABELS_READ(chars), LABELS_READ(reasons),
                      LABELS_READ(keys));

/* The making calls and find put the term into word 0 of the answer. Names that begin with !strk are those of the variables that a Split makes;
 * a caller's variable of such a name is no error. */
uint32_t labels_make_constant(LABELS_WORDS(state), LABELS_WORDS(terms), LABELS_READ(cells), LABELS_WORDS(chars), LABELS_READ(reasons),
                              LABELS_READ(keys), LABELS_READ(text), LABELS_WORDS(answer));
uint32_t labels_make_variable(LABELS_WORDS(state), LABELS_WORDS(terms), LABELS_READ(cells), LABELS_WORDS(chars), LABELS_READ(reasons),
                              LABELS_READ(keys), LABELS_READ(name), LABELS_WORDS(answer));
uint32_t labels_make_concatenation(LABELS_WORDS(state), LABELS_WORDS(terms), LABELS_WORDS(cells), LABELS_READ(chars), LABELS_READ(reasons),
                                   LABELS_READ(keys), LABELS_READ(parts), LABELS_WORDS(answer));
uint32_t labels_make_length(LABELS_WORDS(state), LABELS_WORDS(terms), LABELS_READ(cells), LABELS_READ(chars), LABELS_READ(reasons),
                            LABELS_READ(keys), uint32_t t, LABELS_WORDS(answer));
uint32_t labels_make_equation(LABELS_WORDS(state), LABELS_WORDS(terms), LABELS_READ(cells), LABELS_READ(chars), LABELS_READ(reasons),
                              LABELS_READ(keys), uint32_t t, uint32_t u, LABELS_WORDS(answer));
uint32_t labels_find(LABELS_READ(state), LABELS_READ(terms), LABELS_READ(cells), LABELS_READ(chars), LABELS_READ(reasons), LABELS_READ(keys),
                     uint32_t t, LABELS_WORDS(answer));

/* THE REASONS. Those counted at entry are handed in and stay as they are; labels_explain, the normal forms, labels_resolve_equation,
 * labels_step and labels_nf_equal_explain append the reasons that they name and that the list lacks, by kind and number, so each that they
 * add stands there once. Those named stand in `reasons` below the state's count. So set the count to 0 before a question unless reasons are
 * handed in with it: else the answer names those of the question before too, and once 4,096 stand there every further one is refused (7). Two
 * normal forms and the equation between them are one question: what the forms named has to be handed in with the equation, that is, left
 * counted. What a call is worth is said of all reasons below the count. */
uint32_t labels_explain(LABELS_WORDS(state), LABELS_READ(terms), LABELS_READ(cells), LABELS_READ(chars), LABELS_WORDS(reasons),
                        LABELS_READ(keys), uint32_t a, uint32_t b);

/* `known` has the string terms by which atoms may be replaced. Pass every one: where one is left out the answer says less, and nothing
 * wrong. `list` has 1,024 words or more. The normal forms put 1 and the list's count (deep: 0 and 0 for None) into words 0 and 1 of the
 * answer. */
uint32_t labels_normal_form(LABELS_WORDS(state), LABELS_WORDS(terms), LABELS_READ(cells), LABELS_WORDS(chars), LABELS_WORDS(reasons),
                            LABELS_READ(keys), LABELS_READ(known), uint32_t t, LABELS_WORDS(list), LABELS_WORDS(answer));
uint32_t labels_deep_normal_form(LABELS_WORDS(state), LABELS_WORDS(terms), LABELS_READ(cells), LABELS_WORDS(chars), LABELS_WORDS(reasons),
                                 LABELS_READ(keys), LABELS_READ(known), uint32_t t, LABELS_WORDS(list), LABELS_WORDS(answer));

/* The guard is the caller's number for the equation, neither 0 nor the lowest (5). The case stands in word 0 of the answer: 0 Done, 1
 * Saturated, 2 Conflict, 3 Propagate, 4 Split. Propagate puts the variable, a term that has its word and the link flag into words 1 to 3;
 * Split puts the count of its atoms, which stand first in `list`, and the negated guard as a 32-bit two's complement into words 1 and 2: the
 * clause is, not the equation (the guard's literal, negated) or one of the atoms. Into word 3 Split puts how many terms it made, which is how
 * much the terms' count grew within this call: over two heads six, and one for each of the two lengths and their equation that was absent;
 * over a character three, and one for each of "", its equation and the character's constant that was absent. The step's count may have grown
 * by more, since its normal forms make constants of their own before. A Conflict and a Propagate rest on the reasons below the state's count,
 * and a Split and a Saturated of the step rest on reasons too, those of the normal forms: keep them with whatever is kept of the answer.
 * Where one list is constants alone and the other constants and one variable that is alone in its class, once or more, the answer is Conflict
 * exactly when no word for the variable makes the sides equal. */
uint32_t labels_resolve_equation(LABELS_WORDS(state), LABELS_WORDS(terms), LABELS_WORDS(cells), LABELS_WORDS(chars), LABELS_WORDS(reasons),
                                 LABELS_WORDS(keys), LABELS_READ(lhs), LABELS_READ(rhs), int32_t guard, LABELS_WORDS(list),
                                 LABELS_WORDS(answer));

/* The step over one equation, with the known list: the same words, and 5 in word 0 for Unexpanded. */
uint32_t labels_step(LABELS_WORDS(state), LABELS_WORDS(terms), LABELS_WORDS(cells), LABELS_WORDS(chars), LABELS_WORDS(reasons),
                     LABELS_WORDS(keys), LABELS_READ(known), uint32_t e, int32_t guard, LABELS_WORDS(list), LABELS_WORDS(answer));

/* Every part of a label that must still become "": where one flattened list is empty and the other is two or more variables, "" is made if the
 * store has none, and the variables that are not of its class yet stand first in `list`, in the order of their places, the first of each class.
 * Words 0 to 2 of the answer: how many they are, the number of "", and the link flag, 1 where something is listed. For other lists nothing is
 * made, and all three are 0. No reasons are added: if the two sides have equal words, each listed variable has the word of "", whatever was
 * merged. So what is joined for it rests on the equation between the lists and on what the lists rest on. */
uint32_t labels_empty_parts(LABELS_WORDS(state), LABELS_WORDS(terms), LABELS_READ(cells), LABELS_WORDS(chars), LABELS_READ(reasons),
                            LABELS_READ(keys), LABELS_READ(lhs), LABELS_READ(rhs), LABELS_WORDS(list), LABELS_WORDS(answer));

/* The length that a side of constants forces on the one variable class of the other side. Both lists are flattened, and same heads and then
 * same tails are stripped. With k variables and c constant characters against l characters, l = c + k * m + r and r below k: words 0 to 5 of
 * the answer are 0, k, c, l, m and r. Where l is below c they are 1, k, c, l, the shortage c - l, and 0. With a remainder above 0 or a shortage
 * `labels_resolve_equation` on the same lists answers Conflict, or Saturated where it flattened a concatenation, unless the reasons are full
 * (7): no words fit under the reasons that its Conflict names, and without them some may. Lists that have another form are refused with 11.
 * Nothing but the answer is written. */
uint32_t labels_forced_length(LABELS_READ(state), LABELS_READ(terms), LABELS_READ(cells), LABELS_READ(chars), LABELS_READ(reasons),
                              LABELS_READ(keys), LABELS_READ(lhs), LABELS_READ(rhs), LABELS_WORDS(answer));

/* Word 0 of the answer is 1 where the lists are equal, else 0. */
uint32_t labels_nf_equal(LABELS_READ(state), LABELS_READ(terms), LABELS_READ(cells), LABELS_READ(chars), LABELS_READ(reasons),
                         LABELS_READ(keys), LABELS_READ(lhs), LABELS_READ(rhs), LABELS_WORDS(answer));
uint32_t labels_nf_equal_explain(LABELS_WORDS(state), LABELS_READ(terms), LABELS_READ(cells), LABELS_READ(chars), LABELS_WORDS(reasons),
                                 LABELS_READ(keys), LABELS_READ(lhs), LABELS_READ(rhs));

/* JOINING, MARKS, GOING BACK
 *
 * The state has eight words here: word 6 counts the marks that stand, at most 64, and word 7 the joins recorded since the first of them.
 * Both are 0 at the start. `marks` has 1,597 words or more, which the caller keeps between the calls and does not write: words 0 to 63 are
 * the marks', then three words for each join recorded. What they hold above the two counts is free. A state or an answer under eight words,
 * a shorter `marks`, a count above 64 or 511 is refusal 1. Store and marks are audited first: refusals 2 to 4 and 12 are the store's, and 3
 * is also that going back to a standing mark would give classes that fail, and that counts and words are such as no call leaves: joins counted
 * while no mark stands (words 6 and 7 are 0 and 1), a word other than 0 for the first mark, marks' words that fall or pass the count of joins.
 * After a refusal no word of any slice is written. */

/* Joins the classes of two string terms under a reason, kind 1 asserted or 2 interface and its number below 2^31: one forest edge between a
 * and b with that kind, number and stamp 0; every other edge keeps its ends, kind, value and stamp. Word 0 of the answer is 1, or 0 where the
 * terms are in one class already, and then nothing else is written. Writes the class words of counted terms, and where a mark stands a record
 * of `marks` and word 7 of the state. A term absent or no string term, another kind or number: refusal 5. */
uint32_t labels_join(LABELS_WORDS(state), LABELS_WORDS(terms), LABELS_READ(cells), LABELS_READ(chars), LABELS_READ(reasons),
                     LABELS_READ(keys), LABELS_WORDS(marks), uint32_t a, uint32_t b, uint32_t kind, uint32_t number, LABELS_WORDS(answer));

/* Sets a mark and puts its number into word 0 of the answer: marks are numbered from 1 in the order set. Writes one word of `marks` and word
 * 6 of the state. A 65th mark: refusal 10. */
uint32_t labels_set_mark(LABELS_WORDS(state), LABELS_READ(terms), LABELS_READ(cells), LABELS_READ(chars), LABELS_READ(reasons),
                         LABELS_READ(keys), LABELS_WORDS(marks), LABELS_WORDS(answer));

/* Goes back to a mark, which uses up that mark and later ones: the joins since it are undone, so that each term counted at the mark has its
 * first eight words as they were then, and terms appended since stay, each alone in its class, whatever calls were made between. Writes the
 * class words of counted terms and words 6 and 7 of the state; the other counts, reasons, keys, the name counter and the index stay. A mark
 * that is not standing, 0 too: refusal 10. */
uint32_t labels_go_back(LABELS_WORDS(state), LABELS_WORDS(terms), LABELS_READ(cells), LABELS_READ(chars), LABELS_READ(reasons),
                        LABELS_READ(keys), LABELS_READ(marks), uint32_t mark);

/* A STORE AND ITS CALLS
 *
 * The words are lent through pointers, so a store may be as small as its user likes, and one that is never joined needs no marks. `list` is
 * where the forms, the atoms of a Split and the empty parts come to stand, `answer` the words of the last call that gave any. */
typedef struct labels_store {
    uint32_t state[LABELS_STATE_WORDS];
    uint32_t *terms, *cells, *chars, *reasons, *keys, *marks, *list;
    size_t terms_len, cells_len, chars_len, reasons_len, keys_len, marks_len, list_len;
    uint32_t answer[LABELS_ANSWER_WORDS];
} labels_store;

/* Words for a store with room up to every limit, 184,868 bytes: better static than on the stack. */
typedef struct labels_memory {
    uint32_t terms[LABELS_TERM_WORDS], cells[LABELS_CELL_WORDS], chars[LABELS_CHAR_WORDS], reasons[LABELS_REASON_WORDS];
    uint32_t keys[LABELS_KEY_WORDS], marks[LABELS_MARK_WORDS], list[LABELS_LIST_WORDS];
} labels_memory;

/* Writes the heads of a slice of 64 words or more in which no term is counted: all of them are 0. */
static inline void labels_clear_heads(uint32_t *terms) {
    size_t b;
    for (b = 0; b < LABELS_BUCKETS; b++)
        terms[b] = 0;
}

/* Makes an empty store over the memory. What stands in the memory does not matter, and nothing of it is written but the 64 heads. Who lends
 * another slice of terms afterwards clears its heads too. */
static inline void labels_store_over(labels_store *s, labels_memory *memory) {
    size_t i;
    labels_clear_heads(memory->terms);
    for (i = 0; i < LABELS_STATE_WORDS; i++)
        s->state[i] = 0;
    for (i = 0; i < LABELS_ANSWER_WORDS; i++)
        s->answer[i] = 0;
    s->terms = memory->terms;
    s->terms_len = LABELS_TERM_WORDS;
    s->cells = memory->cells;
    s->cells_len = LABELS_CELL_WORDS;
    s->chars = memory->chars;
    s->chars_len = LABELS_CHAR_WORDS;
    s->reasons = memory->reasons;
    s->reasons_len = LABELS_REASON_WORDS;
    s->keys = memory->keys;
    s->keys_len = LABELS_KEY_WORDS;
    s->marks = memory->marks;
    s->marks_len = LABELS_MARK_WORDS;
    s->list = memory->list;
    s->list_len = LABELS_LIST_WORDS;
}

/* The slices of a store as the plain calls take them, and its marks, list and answer. */
#define LABELS_STORE(s)                                                                                                             \
    (s)->state, (size_t)LABELS_STATE_WORDS, (s)->terms, (s)->terms_len, (s)->cells, (s)->cells_len, (s)->chars, (s)->chars_len,     \
        (s)->reasons, (s)->reasons_len, (s)->keys, (s)->keys_len
#define LABELS_STORE_MARKS(s) (s)->marks, (s)->marks_len
#define LABELS_STORE_LIST(s) (s)->list, (s)->list_len
#define LABELS_STORE_ANSWER(s) (s)->answer, (size_t)LABELS_ANSWER_WORDS

/* Word 0 of the answer goes where the caller wants it, on success alone; a null pointer wants it nowhere. */
static inline uint32_t labels_store_put(const labels_store *s, uint32_t refusal, uint32_t *into) {
    if (refusal == LABELS_ACCEPTED && into != NULL)
        *into = s->answer[0];
    return refusal;
}

static inline uint32_t labels_store_audit(const labels_store *s) { return labels_audit(LABELS_STORE(s)); }

/* The making calls; the last two take text in ASCII that ends with a zero, at most as many characters as the list has words, and use the
 * list for them. Another character or a longer text is refused (5). */
static inline uint32_t labels_store_make_constant(labels_store *s, LABELS_READ(text), uint32_t *term) {
    return labels_store_put(s, labels_make_constant(LABELS_STORE(s), text, text_len, LABELS_STORE_ANSWER(s)), term);
}
static inline uint32_t labels_store_make_variable(labels_store *s, LABELS_READ(name), uint32_t *term) {
    return labels_store_put(s, labels_make_variable(LABELS_STORE(s), name, name_len, LABELS_STORE_ANSWER(s)), term);
}
static inline uint32_t labels_store_make_concatenation(labels_store *s, LABELS_READ(parts), uint32_t *term) {
    return labels_store_put(s, labels_make_concatenation(LABELS_STORE(s), parts, parts_len, LABELS_STORE_ANSWER(s)), term);
}
static inline uint32_t labels_store_make_length(labels_store *s, uint32_t t, uint32_t *term) {
    return labels_store_put(s, labels_make_length(LABELS_STORE(s), t, LABELS_STORE_ANSWER(s)), term);
}
static inline uint32_t labels_store_make_equation(labels_store *s, uint32_t t, uint32_t u, uint32_t *term) {
    return labels_store_put(s, labels_make_equation(LABELS_STORE(s), t, u, LABELS_STORE_ANSWER(s)), term);
}
static inline uint32_t labels_store_ascii(labels_store *s, const char *text, size_t *count) {
    for (*count = 0; text[*count] != 0; ++*count) {
        if (*count >= s->list_len || (unsigned char)text[*count] > 127)
            return LABELS_REFUSED_ARGUMENT;
        s->list[*count] = (uint32_t)(unsigned char)text[*count];
    }
    return LABELS_ACCEPTED;
}
static inline uint32_t labels_store_constant(labels_store *s, const char *text, uint32_t *term) {
    size_t count;
    uint32_t refusal = labels_store_ascii(s, text, &count);
    return refusal != LABELS_ACCEPTED ? refusal : labels_store_make_constant(s, s->list, count, term);
}
static inline uint32_t labels_store_variable(labels_store *s, const char *name, uint32_t *term) {
    size_t count;
    uint32_t refusal = labels_store_ascii(s, name, &count);
    return refusal != LABELS_ACCEPTED ? refusal : labels_store_make_variable(s, s->list, count, term);
}

static inline uint32_t labels_store_find(labels_store *s, uint32_t t, uint32_t *root) {
    return labels_store_put(s, labels_find(LABELS_STORE(s), t, LABELS_STORE_ANSWER(s)), root);
}

/* Joining, marks, going back. `joined`: 1, or 0 where the terms are in one class already. */
static inline uint32_t labels_store_join(labels_store *s, uint32_t a, uint32_t b, uint32_t kind, uint32_t number, uint32_t *joined) {
    return labels_store_put(s, labels_join(LABELS_STORE(s), LABELS_STORE_MARKS(s), a, b, kind, number, LABELS_STORE_ANSWER(s)), joined);
}
static inline uint32_t labels_store_set_mark(labels_store *s, uint32_t *mark) {
    return labels_store_put(s, labels_set_mark(LABELS_STORE(s), LABELS_STORE_MARKS(s), LABELS_STORE_ANSWER(s)), mark);
}
static inline uint32_t labels_store_go_back(labels_store *s, uint32_t mark) {
    return labels_go_back(LABELS_STORE(s), LABELS_STORE_MARKS(s), mark);
}

/* The calls that name reasons. They append to the reasons counted those that are not among them, as the plain calls do: see ASKING A QUESTION
 * below. */
static inline uint32_t labels_store_explain(labels_store *s, uint32_t a, uint32_t b) { return labels_explain(LABELS_STORE(s), a, b); }
static inline uint32_t labels_store_normal_form(labels_store *s, LABELS_READ(known), uint32_t t) {
    return labels_normal_form(LABELS_STORE(s), known, known_len, t, LABELS_STORE_LIST(s), LABELS_STORE_ANSWER(s));
}
static inline uint32_t labels_store_deep_normal_form(labels_store *s, LABELS_READ(known), uint32_t t) {
    return labels_deep_normal_form(LABELS_STORE(s), known, known_len, t, LABELS_STORE_LIST(s), LABELS_STORE_ANSWER(s));
}
static inline uint32_t labels_store_resolve_equation(labels_store *s, LABELS_READ(lhs), LABELS_READ(rhs), int32_t guard) {
    return labels_resolve_equation(LABELS_STORE(s), lhs, lhs_len, rhs, rhs_len, guard, LABELS_STORE_LIST(s), LABELS_STORE_ANSWER(s));
}
static inline uint32_t labels_store_step(labels_store *s, LABELS_READ(known), uint32_t e, int32_t guard) {
    return labels_step(LABELS_STORE(s), known, known_len, e, guard, LABELS_STORE_LIST(s), LABELS_STORE_ANSWER(s));
}
static inline uint32_t labels_store_nf_equal_explain(labels_store *s, LABELS_READ(lhs), LABELS_READ(rhs)) {
    return labels_nf_equal_explain(LABELS_STORE(s), lhs, lhs_len, rhs, rhs_len);
}
static inline uint32_t labels_store_nf_equal(labels_store *s, LABELS_READ(lhs), LABELS_READ(rhs), uint32_t *equal) {
    return labels_store_put(s, labels_nf_equal(LABELS_STORE(s), lhs, lhs_len, rhs, rhs_len, LABELS_STORE_ANSWER(s)), equal);
}

/* Names no reasons. A join puts its own answer over the three words: copy them before the variables are joined. */
static inline uint32_t labels_store_empty_parts(labels_store *s, LABELS_READ(lhs), LABELS_READ(rhs)) {
    return labels_empty_parts(LABELS_STORE(s), lhs, lhs_len, rhs, rhs_len, LABELS_STORE_LIST(s), LABELS_STORE_ANSWER(s));
}

static inline uint32_t labels_store_forced_length(labels_store *s, LABELS_READ(lhs), LABELS_READ(rhs)) {
    return labels_forced_length(LABELS_STORE(s), lhs, lhs_len, rhs, rhs_len, LABELS_STORE_ANSWER(s));
}

/* ASKING A QUESTION
 *
 * `labels_ask` sets the reasons' count to 0 and asks the step, so that the reasons below the count are those of this answer and no other's.
 * `labels_ask_with` hands reasons in instead: pairs of a kind and a number, which the answer then rests on too. Afterwards read
 * `labels_reason_count` reasons with `labels_reason` and keep them with the rule that is made of the answer: not of a Conflict and a Propagate
 * alone, a Split and a Saturated of the step rest on reasons too. For the other calls that name reasons begin with `labels_hand_in`, with
 * none (NULL and 0) or with those that are handed in. After a refusal the count is that with which the question began. */
static inline uint32_t labels_hand_in(labels_store *s, const uint32_t *pairs, size_t count) {
    size_t i;
    if (count > LABELS_MAX_REASONS || count > s->reasons_len / LABELS_PAIR_WIDTH)
        return LABELS_REFUSED_REASONS;
    for (i = 0; i < count; i++)
        if ((pairs[LABELS_PAIR_WIDTH * i] != LABELS_ASSERTED && pairs[LABELS_PAIR_WIDTH * i] != LABELS_INTERFACE) ||
            pairs[LABELS_PAIR_WIDTH * i + 1] > 0x7FFFFFFFu)
            return LABELS_REFUSED_ARGUMENT;
    for (i = 0; i < LABELS_PAIR_WIDTH * count; i++)
        s->reasons[i] = pairs[i];
    s->state[LABELS_COUNT_REASONS] = (uint32_t)count;
    return LABELS_ACCEPTED;
}
static inline uint32_t labels_ask_with(labels_store *s, const uint32_t *pairs, size_t count, LABELS_READ(known), uint32_t e, int32_t guard) {
    uint32_t refusal = labels_hand_in(s, pairs, count);
    return refusal != LABELS_ACCEPTED ? refusal : labels_store_step(s, known, known_len, e, guard);
}
static inline uint32_t labels_ask(labels_store *s, LABELS_READ(known), uint32_t e, int32_t guard) {
    return labels_ask_with(s, NULL, 0, known, known_len, e, guard);
}

/* What the last question answered. The guard is the one that was handed to it, negated; the atoms of a Split stand first in `list`. The guard
 * and the terms made are those of a Split. */
static inline uint32_t labels_answer_case(const labels_store *s) { return s->answer[LABELS_ANSWER_CASE]; }
static inline int32_t labels_answer_guard(const labels_store *s) {
    uint32_t word = s->answer[LABELS_ANSWER_GUARD];
    return word <= 0x7FFFFFFFu ? (int32_t)word : -(int32_t)(0xFFFFFFFFu - word) - 1;
}
static inline uint32_t labels_answer_terms_made(const labels_store *s) { return s->answer[LABELS_ANSWER_TERMS_MADE]; }
static inline uint32_t labels_reason_count(const labels_store *s) { return s->state[LABELS_COUNT_REASONS]; }
static inline void labels_reason(const labels_store *s, uint32_t i, uint32_t *kind, uint32_t *number) {
    *kind = s->reasons[LABELS_PAIR_WIDTH * (size_t)i];
    *number = s->reasons[LABELS_PAIR_WIDTH * (size_t)i + 1];
}

#ifdef __cplusplus
}
#endif
#endif
