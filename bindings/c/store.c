/* The calls of `labels_store`, each at least once, held to what the plain calls answer. Prints one line where all is as it should be. */
#include "../labels.h"
#include <stdio.h>
#include <string.h>

static labels_memory memory, other;
static labels_store s, t;
static int wrong;

static void hold(int true_, int line) {
    if (!true_) {
        printf("store.c: line %d does not hold\n", line);
        wrong = 1;
    }
}
#define HOLD(condition) hold(condition, __LINE__)

static void making(void) {
    const uint32_t text[] = {'a', 'b', 0x3BB};
    uint32_t a = 0, v = 0, w = 0, n = 0, e = 0, again = 0, long_text = 0;
    static char big[LABELS_LIST_WORDS + 2];
    uint32_t parts[2];
    labels_store_over(&s, &memory);
    HOLD(labels_store_audit(&s) == LABELS_ACCEPTED);
    HOLD(labels_store_make_constant(&s, LABELS_LEND(text), &a) == 0 && a == 1);
    HOLD(labels_store_make_variable(&s, text, 1, &v) == 0 && v == 2);
    HOLD(labels_store_variable(&s, "a", &again) == 0 && again == v);
    parts[0] = a;
    parts[1] = v;
    HOLD(labels_store_make_concatenation(&s, LABELS_LEND(parts), &w) == 0 && w == 3);
    HOLD(labels_store_make_length(&s, w, &n) == 0 && n == 4);
    HOLD(labels_store_make_equation(&s, w, a, &e) == 0 && e == 5);
    HOLD(labels_store_find(&s, w, &again) == 0 && again == w);
    /* a refusal leaves what it was to put alone, and a null pointer wants nothing */
    again = 77;
    HOLD(labels_store_make_length(&s, e, &again) == LABELS_REFUSED_ARGUMENT && again == 77);
    HOLD(labels_store_constant(&s, "", NULL) == 0 && labels_store_variable(&s, "", &again) == LABELS_REFUSED_ARGUMENT);
    HOLD(labels_store_constant(&s, "\xCE\xBB", &again) == LABELS_REFUSED_ARGUMENT);
    memset(big, 'z', LABELS_LIST_WORDS);
    HOLD(labels_store_constant(&s, big, &long_text) == 0 && s.terms[LABELS_TERM_PLACE(long_text, LABELS_TERM_SECOND)] == LABELS_LIST_WORDS);
    big[LABELS_LIST_WORDS] = 'z';
    HOLD(labels_store_constant(&s, big, &again) == LABELS_REFUSED_ARGUMENT && again == 77);
    HOLD(labels_store_audit(&s) == LABELS_ACCEPTED);
}

/* Characters at the bounds, in constants and in names; one above the highest, handed in and lent. */
static void alphabet(void) {
    const uint32_t taken[] = {0xD7FF, 0xD800, 0xDFFF, 0xE000, LABELS_MAX_CHARACTER}, above[] = {LABELS_MAX_CHARACTER + 1};
    uint32_t a = 0, v = 0, x = 0, i;
    labels_store_over(&s, &memory);
    for (i = 0; i < 5; i++)
        HOLD(labels_store_make_constant(&s, taken + i, 1, &x) == 0 && x == i + 1);
    HOLD(labels_store_make_constant(&s, LABELS_LEND(taken), &a) == 0 && labels_store_make_variable(&s, LABELS_LEND(taken), &v) == 0);
    HOLD(a == 6 && v == 7 && labels_store_audit(&s) == LABELS_ACCEPTED);
    HOLD(labels_store_make_constant(&s, LABELS_LEND(above), &x) == LABELS_REFUSED_ARGUMENT);
    HOLD(labels_store_make_variable(&s, LABELS_LEND(above), &x) == LABELS_REFUSED_ARGUMENT);
    s.chars[s.terms[LABELS_TERM_PLACE(v, LABELS_TERM_FIRST)]] = LABELS_MAX_CHARACTER + 1;
    HOLD(labels_store_audit(&s) == LABELS_REFUSED_RECORDS && labels_store_find(&s, a, &x) == LABELS_REFUSED_RECORDS);
}

static void joining(void) {
    uint32_t x = 0, y = 0, mark = 0, joined = 0, root = 0;
    labels_store_over(&s, &memory);
    HOLD(labels_store_variable(&s, "x", &x) == 0 && labels_store_variable(&s, "y", &y) == 0);
    HOLD(labels_store_set_mark(&s, &mark) == 0 && mark == 1 && s.state[LABELS_COUNT_MARKS] == 1);
    HOLD(labels_store_join(&s, x, y, LABELS_INTERFACE, 4, &joined) == 0 && joined == 1 && s.state[LABELS_COUNT_JOINS] == 1);
    HOLD(labels_store_join(&s, x, y, LABELS_ASSERTED, 5, &joined) == 0 && joined == 0);
    HOLD(labels_store_explain(&s, x, y) == 0 && labels_reason_count(&s) == 1);
    HOLD(labels_store_go_back(&s, mark) == 0 && labels_store_find(&s, x, &root) == 0 && root == x);
    HOLD(labels_store_go_back(&s, mark) == LABELS_REFUSED_MARK);
}

/* Questions on a store of x ++ "a" = y ++ "b", x and y of one class by a7: a conflict, and it names a7. */
static void asking(void) {
    const uint32_t handed[] = {LABELS_INTERFACE, 9, LABELS_ASSERTED, 8}, bad[] = {3, 1}, large[] = {1, 0x80000000u};
    uint32_t x = 0, y = 0, a = 0, b = 0, lhs = 0, rhs = 0, e = 0, kind = 0, number = 0, equal = 0, l[2], r[2];
    int i;
    labels_store_over(&s, &memory);
    HOLD(labels_store_variable(&s, "x", &x) == 0 && labels_store_variable(&s, "y", &y) == 0);
    HOLD(labels_store_constant(&s, "a", &a) == 0 && labels_store_constant(&s, "b", &b) == 0);
    l[0] = x, l[1] = a, r[0] = y, r[1] = b;
    HOLD(labels_store_make_concatenation(&s, LABELS_LEND(l), &lhs) == 0 && labels_store_make_concatenation(&s, LABELS_LEND(r), &rhs) == 0);
    HOLD(labels_store_make_equation(&s, lhs, rhs, &e) == 0);
    HOLD(labels_store_join(&s, x, y, LABELS_ASSERTED, 7, NULL) == 0);
    /* however often it is asked, the answer names its own reasons and no others */
    for (i = 0; i < 5000; i++)
        HOLD(labels_ask(&s, NULL, 0, e, 1) == 0 && labels_answer_case(&s) == LABELS_CONFLICT && labels_reason_count(&s) == 1);
    labels_reason(&s, 0, &kind, &number);
    HOLD(kind == LABELS_ASSERTED && number == 7);
    /* the plain call appends what the list lacks */
    HOLD(labels_store_step(&s, NULL, 0, e, 1) == 0 && labels_reason_count(&s) == 1);
    HOLD(labels_hand_in(&s, handed, 1) == 0 && labels_store_step(&s, NULL, 0, e, 1) == 0 && labels_reason_count(&s) == 2);
    /* reasons handed in come first and stay */
    HOLD(labels_ask_with(&s, handed, 2, NULL, 0, e, 1) == 0 && labels_reason_count(&s) == 3);
    labels_reason(&s, 1, &kind, &number);
    HOLD(kind == LABELS_ASSERTED && number == 8);
    HOLD(labels_hand_in(&s, bad, 1) == LABELS_REFUSED_ARGUMENT && labels_hand_in(&s, large, 1) == LABELS_REFUSED_ARGUMENT);
    HOLD(labels_hand_in(&s, handed, LABELS_MAX_REASONS + 1) == LABELS_REFUSED_REASONS && labels_reason_count(&s) == 3);
    /* the forms by hand are one question with their equation */
    HOLD(labels_hand_in(&s, NULL, 0) == 0 && labels_store_normal_form(&s, NULL, 0, lhs) == 0 && s.answer[0] == 1 && s.answer[1] == 2);
    HOLD(labels_store_deep_normal_form(&s, &x, 1, rhs) == 0 && s.answer[1] == 2 && s.list[0] == x && labels_reason_count(&s) == 1);
    r[0] = s.list[0];
    HOLD(labels_store_resolve_equation(&s, LABELS_LEND(l), LABELS_LEND(r), 1) == 0 && labels_answer_case(&s) == LABELS_CONFLICT);
    HOLD(labels_reason_count(&s) == 1);
    HOLD(labels_store_nf_equal(&s, &x, 1, &y, 1, &equal) == 0 && equal == 1);
    HOLD(labels_hand_in(&s, NULL, 0) == 0 && labels_store_nf_equal_explain(&s, &x, 1, &y, 1) == 0 && labels_reason_count(&s) == 1);
    /* a Split: its guard both ways round */
    HOLD(labels_store_variable(&s, "z", &y) == 0 && labels_hand_in(&s, NULL, 0) == 0);
    l[0] = y, l[1] = x, r[0] = a, r[1] = y;
    HOLD(labels_store_resolve_equation(&s, LABELS_LEND(l), LABELS_LEND(r), 7) == 0 && labels_answer_case(&s) == LABELS_SPLIT);
    HOLD(labels_answer_guard(&s) == -7 && s.answer[LABELS_ANSWER_ATOMS] == 2 && labels_answer_terms_made(&s) == 5);
    l[0] = x, l[1] = y, r[0] = y, r[1] = x;
    HOLD(labels_store_resolve_equation(&s, LABELS_LEND(l), LABELS_LEND(r), -2147483647) == 0 && labels_answer_guard(&s) == 2147483647);
    HOLD(labels_store_audit(&s) == LABELS_ACCEPTED);
}

/* A Split of two lists: it made so many terms, the count of terms grew by more where the step's forms made some, and no word of the answer
 * after the fourth is written. The keys are not counted, so that the same heads can be split again. */
static void split(uint32_t refusal, uint32_t before, uint32_t made, uint32_t grown) {
    HOLD(refusal == LABELS_ACCEPTED && labels_answer_case(&s) == LABELS_SPLIT && labels_answer_terms_made(&s) == made);
    HOLD(s.state[LABELS_COUNT_TERMS] == before + grown && s.answer[LABELS_ANSWER_TERMS_MADE + 1] == 77);
    s.state[LABELS_COUNT_KEYS] = 0;
}

static void splitting(void) {
    uint32_t x = 0, y = 0, a = 0, b = 0, e = 0, l[3], r[2], n;
    labels_store_over(&s, &memory);
    s.answer[LABELS_ANSWER_TERMS_MADE + 1] = 77;
    HOLD(labels_store_variable(&s, "x", &x) == 0 && labels_store_variable(&s, "y", &y) == 0);
    l[0] = r[1] = x, l[1] = r[0] = y, n = s.state[LABELS_COUNT_TERMS];
    split(labels_store_resolve_equation(&s, l, 2, r, 2, 1), n, LABELS_MAX_SPLIT_TERMS, 9);
    /* lengths and equation are there; with the sides exchanged the equation is another */
    split(labels_store_resolve_equation(&s, l, 2, r, 2, 1), n + 9, 6, 6);
    split(labels_store_resolve_equation(&s, r, 2, l, 2, 1), n + 15, 7, 7);
    /* a character: "", x = "" and "a" are absent, then there */
    HOLD(labels_store_constant(&s, "ab", &r[0]) == 0);
    r[1] = y, n = s.state[LABELS_COUNT_TERMS];
    split(labels_store_resolve_equation(&s, l, 1, r, 2, 1), n, LABELS_MAX_CHARACTER_SPLIT_TERMS, 6);
    split(labels_store_resolve_equation(&s, l, 1, r, 2, 1), n + 6, 3, 3);
    /* the step over x ++ "a" ++ "b" = y ++ x: the form of the left side makes "ab" */
    labels_store_over(&s, &memory);
    s.answer[LABELS_ANSWER_TERMS_MADE + 1] = 77;
    HOLD(labels_store_variable(&s, "x", &x) == 0 && labels_store_variable(&s, "y", &y) == 0);
    HOLD(labels_store_constant(&s, "a", &a) == 0 && labels_store_constant(&s, "b", &b) == 0);
    l[0] = r[1] = x, l[1] = a, l[2] = b, r[0] = y;
    HOLD(labels_store_make_concatenation(&s, l, 3, &a) == 0 && labels_store_make_concatenation(&s, r, 2, &b) == 0);
    HOLD(labels_store_make_equation(&s, a, b, &e) == 0);
    split(labels_ask(&s, NULL, 0, e, 1), e, 9, 10);
    /* other answers and refusals leave the word alone */
    s.answer[LABELS_ANSWER_TERMS_MADE] = 78;
    HOLD(labels_store_resolve_equation(&s, l, 3, l, 3, 1) == 0 && labels_answer_case(&s) == LABELS_DONE);
    HOLD(labels_store_resolve_equation(&s, l, 1, r, 2, 0) == LABELS_REFUSED_ARGUMENT && labels_answer_terms_made(&s) == 78);
}

/* Two variables of one class and a third against an empty list, and lists of another form. */
static void emptying(void) {
    uint32_t label[3], empty = 0, i;
    labels_store_over(&s, &memory);
    HOLD(labels_store_variable(&s, "x", &label[0]) == 0 && labels_store_variable(&s, "y", &label[1]) == 0);
    HOLD(labels_store_variable(&s, "z", &label[2]) == 0 && labels_store_join(&s, label[1], label[0], LABELS_ASSERTED, 7, NULL) == 0);
    /* another form: three zeros, and nothing is made; a refusal leaves the answer alone */
    s.answer[LABELS_PARTS_COUNT] = s.answer[LABELS_PARTS_EMPTY] = s.answer[LABELS_PARTS_LINK] = s.answer[3] = 77;
    HOLD(labels_store_empty_parts(&s, label, 1, label, 2) == 0 && s.state[LABELS_COUNT_TERMS] == 3);
    HOLD(s.answer[LABELS_PARTS_COUNT] == 0 && s.answer[LABELS_PARTS_EMPTY] == 0 && s.answer[LABELS_PARTS_LINK] == 0 && s.answer[3] == 77);
    HOLD(labels_store_empty_parts(&s, NULL, 0, LABELS_LEND(label)) == 0 && s.answer[LABELS_PARTS_COUNT] == 2);
    HOLD(s.answer[LABELS_PARTS_EMPTY] == 4 && s.answer[LABELS_PARTS_LINK] == 1 && s.answer[3] == 77 && labels_reason_count(&s) == 0);
    HOLD(s.list[0] == label[0] && s.list[1] == label[2] && labels_store_constant(&s, "", &empty) == 0 && empty == 4);
    s.answer[0] = s.list[0] = 77;
    label[2] = 9;
    HOLD(labels_store_empty_parts(&s, LABELS_LEND(label), NULL, 0) == LABELS_REFUSED_ARGUMENT && s.answer[0] == 77 && s.list[0] == 77);
    for (i = 1; i <= 3; i++)
        HOLD(labels_store_join(&s, i, empty, LABELS_INTERFACE, i, NULL) == 0);
    label[2] = 3;
    HOLD(labels_store_empty_parts(&s, LABELS_LEND(label), NULL, 0) == 0 && s.answer[LABELS_PARTS_COUNT] == 0);
    HOLD(s.answer[LABELS_PARTS_EMPTY] == empty && s.answer[LABELS_PARTS_LINK] == 0 && labels_store_audit(&s) == LABELS_ACCEPTED);
}

/* A field that stands twice against a code; a refusal leaves the answer alone, and nothing else is written. */
static void fitting(void) {
    uint32_t label[3], code[1], before[LABELS_STATE_WORDS];
    labels_store_over(&s, &memory);
    HOLD(labels_store_variable(&s, "lot", &label[0]) == 0 && labels_store_constant(&s, "-", &label[1]) == 0);
    HOLD(labels_store_constant(&s, "A7-A71", &code[0]) == 0);
    label[2] = label[0];
    memcpy(before, s.state, sizeof before);
    s.answer[6] = 77;
    HOLD(labels_store_forced_length(&s, LABELS_LEND(code), LABELS_LEND(label)) == 0 && s.answer[LABELS_FIT_CASE] == LABELS_FIT_SPANS);
    HOLD(s.answer[LABELS_FIT_VARIABLES] == 2 && s.answer[LABELS_FIT_CONSTANT] == 1 && s.answer[LABELS_FIT_AGAINST] == 6);
    HOLD(s.answer[LABELS_FIT_LENGTH] == 2 && s.answer[LABELS_FIT_REST] == 1 && s.answer[6] == 77);
    HOLD(labels_store_forced_length(&s, LABELS_LEND(label), NULL, 0) == 0 && s.answer[LABELS_FIT_CASE] == LABELS_FIT_SHORT);
    HOLD(s.answer[LABELS_FIT_CONSTANT] == 1 && s.answer[LABELS_FIT_AGAINST] == 0 && s.answer[LABELS_FIT_SHORTAGE] == 1 && s.answer[5] == 0);
    HOLD(labels_store_forced_length(&s, LABELS_LEND(label), LABELS_LEND(label)) == LABELS_REFUSED_FORM && s.answer[LABELS_FIT_SHORTAGE] == 1);
    HOLD(memcmp(before, s.state, sizeof before) == 0 && labels_store_audit(&s) == LABELS_ACCEPTED);
}

/* The index of four terms, two of them in one bucket: x ++ x (3 + 1 + 1) and the length of x (4 + 1). A store whose memory is not clear begins
 * with heads of 0; what the calls leave is the index of the terms, and another is refused before a wrong argument. */
static void indexing(void) {
    uint32_t twice[2], x = 0, xx = 0, n = 0, e = 0, again = 0, kept, b;
    memset(&memory, 0xAB, sizeof memory);
    labels_store_over(&s, &memory);
    HOLD(labels_store_audit(&s) == LABELS_ACCEPTED && memory.terms[LABELS_BUCKETS] == 0xABABABABu);
    HOLD(labels_store_variable(&s, "x", &x) == 0 && x == 1);
    twice[0] = twice[1] = x;
    HOLD(labels_store_make_concatenation(&s, LABELS_LEND(twice), &xx) == 0 && labels_store_make_length(&s, x, &n) == 0);
    HOLD(labels_store_make_equation(&s, x, xx, &e) == 0 && e == 4);
    /* 2 + 120 for x, 5 + 1 + 2 for x = x ++ x */
    for (b = 0; b < LABELS_BUCKETS; b++)
        HOLD(s.terms[b] == (b == 58 ? x : b == 5 ? xx : b == 8 ? e : 0));
    HOLD(s.terms[LABELS_TERM_PLACE(xx, LABELS_TERM_NEXT)] == n && s.terms[LABELS_TERM_PLACE(n, LABELS_TERM_NEXT)] == 0);
    HOLD(labels_store_make_concatenation(&s, LABELS_LEND(twice), &again) == 0 && again == xx);
    HOLD(labels_store_make_length(&s, x, &again) == 0 && again == n);
    for (b = 0; b < LABELS_BUCKETS; b++) {
        kept = s.terms[b];
        s.terms[b] = kept == e ? x : e;
        HOLD(labels_store_audit(&s) == LABELS_REFUSED_INDEX && labels_store_find(&s, 9, &again) == LABELS_REFUSED_INDEX);
        s.terms[b] = kept;
    }
    /* the count put back: the chain of x ++ x goes on to a length that is not counted */
    s.state[LABELS_COUNT_TERMS] = 2;
    HOLD(labels_store_audit(&s) == LABELS_REFUSED_INDEX);
    s.state[LABELS_COUNT_TERMS] = 4;
    HOLD(labels_store_audit(&s) == LABELS_ACCEPTED);
}

/* "@", x and y with room for four terms, [x, y] = ["@"]: "" goes behind "@" into bucket 1 and takes the room, the Split is refused, and the
 * chain is as it was. */
static void refused(void) {
    uint32_t at = 0, l[2], few[LABELS_TERM_PLACE(5, 0)], i;
    labels_store_over(&s, &memory);
    s.terms = few, s.terms_len = sizeof few / sizeof *few;
    for (i = 0; i < s.terms_len; i++)
        few[i] = 0;
    HOLD(labels_store_constant(&s, "@", &at) == 0 && labels_store_variable(&s, "x", &l[0]) == 0 && labels_store_variable(&s, "y", &l[1]) == 0);
    HOLD(few[1] == at && few[LABELS_TERM_PLACE(at, LABELS_TERM_NEXT)] == 0);
    HOLD(labels_store_resolve_equation(&s, LABELS_LEND(l), &at, 1, 1) == LABELS_REFUSED_ROOM && s.state[LABELS_COUNT_TERMS] == 3);
    HOLD(few[1] == at && few[LABELS_TERM_PLACE(at, LABELS_TERM_NEXT)] == 0 && labels_store_audit(&s) == LABELS_ACCEPTED);
}

/* A store keeps its words to itself, and may be small. */
static void small(void) {
    uint32_t few[LABELS_TERM_PLACE(2, 0)], cell[LABELS_CELL_WIDTH], characters[1], x = 0;
    labels_store_over(&t, &other);
    t.terms = few, t.terms_len = sizeof few / sizeof *few, t.cells = cell, t.cells_len = 3, t.chars = characters, t.chars_len = 1;
    labels_clear_heads(t.terms);
    t.reasons = t.keys = NULL;
    t.reasons_len = t.keys_len = 0;
    HOLD(labels_store_variable(&t, "x", &x) == 0 && x == 1 && labels_store_audit(&t) == 0);
    HOLD(labels_store_variable(&t, "y", &x) == LABELS_REFUSED_ROOM && t.state[LABELS_COUNT_TERMS] == 1);
}

int main(void) {
    uint32_t i, k;
    making();
    alphabet();
    joining();
    asking();
    splitting();
    emptying();
    fitting();
    indexing();
    refused();
    small();
    for (i = 0; i <= 13; i++)
        for (k = 0; k < i; k++)
            HOLD(strcmp(labels_refusal_text(i), labels_refusal_text(k)) != 0);
    HOLD(strcmp(labels_case_text(LABELS_UNEXPANDED), "unexpanded") == 0 && strcmp(labels_case_text(6), labels_case_text(7)) == 0);
    if (!wrong)
        printf("labels %s: every call of the store as expected\n", LABELS_VERSION);
    return wrong;
}
