/*
 * Calls the library with a text and tables of exactly the lent size: on the heap, where AddressSanitizer and valgrind
 * watch, and at both ends of pages that cannot be touched, the text and read-only tables on pages that cannot be
 * written. Demands besides that exactly the given keywords have a spelling, from the given kind on.
 *
 * Usage: test KIND KEYWORD...
 */
#define _DEFAULT_SOURCE
#include "idl.h"

#include <stdio.h>
#include <stdlib.h>
#include <string.h>
#include <sys/mman.h>

#define PAGE 4096
#define FILLER 0x5aa5f00du
#define KINDS_TRIED (3u << 16)
#define LENGTH(array) (sizeof(array) / sizeof *(array))

/* A constant in parentheses: what stands before them, its tokens and tree records, and the most that is tried. */
#define NESTED_BEFORE "const long A = "
#define NESTED_TOKENS(depth) (6 + 2 * (depth))
#define NESTED_RECORDS(depth) (5 + (depth))
#define DEEPEST (IDL_DEPTH_CEILING + 1)

static void demand(int holds, const char *what) {
    if (!holds) {
        fprintf(stderr, "%s\n", what);
        exit(1);
    }
}

/* Where lent memory stands: on the heap, right after a page that is out of bounds, or right before one. */
enum stand { HEAP, AFTER_GUARD, BEFORE_GUARD, STANDS };

struct lent {
    enum stand stand;
    uint8_t *pages;
    size_t pages_len;
    void *bytes;
};

/* Lends a copy of these bytes. */
static struct lent lend(enum stand stand, const void *bytes, size_t length, int writable) {
    struct lent lent = {stand, NULL, 0, NULL};
    if (stand == HEAP) {
        lent.bytes = malloc(length);
        demand(lent.bytes != NULL || length == 0, "the heap has room");
    } else {
        const size_t inner = (length + PAGE) / PAGE * PAGE;
        lent.pages_len = inner + 2 * PAGE;
        lent.pages = mmap(NULL, lent.pages_len, PROT_NONE, MAP_PRIVATE | MAP_ANONYMOUS, -1, 0);
        demand(lent.pages != MAP_FAILED, "pages can be had");
        demand(mprotect(lent.pages + PAGE, inner, PROT_READ | PROT_WRITE) == 0, "pages open");
        lent.bytes = lent.pages + PAGE + (stand == BEFORE_GUARD ? inner - length : 0);
    }
    if (length > 0) {
        memcpy(lent.bytes, bytes, length);
    }
    if (stand != HEAP && !writable) {
        demand(mprotect(lent.pages + PAGE, lent.pages_len - 2 * PAGE, PROT_READ) == 0, "pages close");
    }
    return lent;
}

static void give_back(struct lent lent) {
    if (lent.stand == HEAP) {
        free(lent.bytes);
    } else {
        munmap(lent.pages, lent.pages_len);
    }
}

/* Lends a table of this many numbers, filled with what no reader writes. */
static struct lent lend_table(enum stand stand, size_t length) {
    uint32_t *numbers = malloc((length + 1) * sizeof *numbers);
    demand(numbers != NULL, "the heap has room");
    for (size_t at = 0; at < length; at++) {
        numbers[at] = FILLER;
    }
    const struct lent lent = lend(stand, numbers, length * sizeof *numbers, 1);
    free(numbers);
    return lent;
}

/* Whether a table holds what its reply says: records and the filler after them, the filler, or zeros. */
static int is_as_replied(const uint32_t *table, size_t length, uint32_t number, size_t used) {
    const uint32_t wanted = number <= IDL_BAD_CALL ? FILLER : 0;
    for (size_t at = number == IDL_ACCEPTED ? used : 0; at < length; at++) {
        if (table[at] != wanted) {
            return 0;
        }
    }
    return 1;
}

struct row {
    const char *text;
    size_t tokens_len;
    size_t tree_len;
    uint32_t depth;
    idl_reply tokens_reply; /* of the token part */
    idl_reply reply;        /* of the whole */
};

static const char SHIFT[] = "const long A = 1 << 8 + 4;";

static const struct row ROWS[] = {
    {"", 0, 0, IDL_DEPTH_CEILING, {IDL_ACCEPTED, 0, 0, 0}, {IDL_GRAMMAR, 0, 0, 0}},
    {"native A;", 9, 16, IDL_DEPTH_CEILING, {IDL_ACCEPTED, 9, 3, 0}, {IDL_ACCEPTED, 9, 3, 4}},
    {"native A;", 11, 19, 1, {IDL_ACCEPTED, 9, 3, 0}, {IDL_ACCEPTED, 9, 3, 4}},
    {"native A;", 9, 15, IDL_DEPTH_CEILING, {IDL_ACCEPTED, 9, 3, 0}, {IDL_TREE_TABLE_FULL, 9, 3, 4}},
    {"native A;", 9, 0, IDL_DEPTH_CEILING, {IDL_ACCEPTED, 9, 3, 0}, {IDL_TREE_TABLE_FULL, 9, 3, 4}},
    {"native A;", 8, 16, IDL_DEPTH_CEILING, {IDL_TOKEN_TABLE_FULL, 9, 3, 0}, {IDL_TOKEN_TABLE_FULL, 9, 3, 0}},
    {"native A;", 0, 0, IDL_DEPTH_CEILING, {IDL_TOKEN_TABLE_FULL, 9, 3, 0}, {IDL_TOKEN_TABLE_FULL, 9, 3, 0}},
    {"native A;", 9, 16, 0, {IDL_ACCEPTED, 9, 3, 0}, {IDL_BAD_CALL, 0, 0, 0}},
    {"native A;", 9, 16, IDL_DEPTH_CEILING + 1, {IDL_ACCEPTED, 9, 3, 0}, {IDL_BAD_CALL, 0, 0, 0}},
    {SHIFT, 30, 36, IDL_DEPTH_CEILING, {IDL_ACCEPTED, 26, 10, 0}, {IDL_ACCEPTED, 26, 10, 9}},
    {SHIFT, 30, 35, IDL_DEPTH_CEILING, {IDL_ACCEPTED, 26, 10, 0}, {IDL_TREE_TABLE_FULL, 26, 10, 9}},
    {"const long A = - -1;", 30, 40, IDL_DEPTH_CEILING, {IDL_ACCEPTED, 20, 8, 0}, {IDL_GRAMMAR, 17, 8, 0}},
    {"const long A = ((1));", 30, 40, 1, {IDL_ACCEPTED, 21, 10, 0}, {IDL_TOO_DEEP, 16, 10, 0}},
    {"interface Factory { };", 3, 2, IDL_DEPTH_CEILING, {IDL_KEYWORD_CASE, 10, 33, 0}, {IDL_KEYWORD_CASE, 10, 33, 0}},
    {"native A; FALSe", 1, 1, IDL_DEPTH_CEILING, {IDL_KEYWORD_CASE, 10, 16, 0}, {IDL_KEYWORD_CASE, 10, 16, 0}},
    {"WString 08", 0, 0, IDL_DEPTH_CEILING, {IDL_KEYWORD_CASE, 0, 63, 0}, {IDL_KEYWORD_CASE, 0, 63, 0}},
    {"const long A = 08;", 2, 3, IDL_DEPTH_CEILING, {IDL_BAD_LITERAL, 15, 0, 0}, {IDL_BAD_LITERAL, 15, 0, 0}},
    {"/* x", 1, 1, IDL_DEPTH_CEILING, {IDL_OPEN, 0, 0, 0}, {IDL_OPEN, 0, 0, 0}},
    {"native A; \"\\x", 1, 1, IDL_DEPTH_CEILING, {IDL_OPEN, 10, 0, 0}, {IDL_OPEN, 10, 0, 0}},
    {"native A; 0x", 1, 1, IDL_DEPTH_CEILING, {IDL_BAD_LITERAL, 10, 0, 0}, {IDL_BAD_LITERAL, 10, 0, 0}},
    {"native A; _", 1, 1, IDL_DEPTH_CEILING, {IDL_NO_LEXEME, 10, 0, 0}, {IDL_NO_LEXEME, 10, 0, 0}},
};

static int same_reply(idl_reply left, idl_reply right) {
    return left.number == right.number && left.place == right.place && left.tokens == right.tokens &&
           left.records == right.records;
}

static void test_tokens(const struct row *row, enum stand stand) {
    const size_t text_len = strlen(row->text);
    const struct lent text = lend(stand, row->text, text_len, 0);
    const struct lent tokens = lend_table(stand, row->tokens_len);
    const idl_reply reply = idl_read_tokens(text.bytes, text_len, tokens.bytes, row->tokens_len);
    demand(same_reply(reply, row->tokens_reply), row->text);
    demand(is_as_replied(tokens.bytes, row->tokens_len, reply.number, IDL_TOKEN_NUMBERS * reply.tokens), row->text);
    give_back(tokens);
    give_back(text);
}

static void test_spelling(enum stand stand) {
    const char *const words = "a name";
    const size_t text_len = strlen(words);
    /* One record inside the text, two that leave it, and the start of a fourth. */
    const uint32_t records[] = {
        IDL_IDENTIFIER, 2, 4,
        IDL_IDENTIFIER, 5, 2,
        IDL_IDENTIFIER, 6, UINT32_MAX,
        IDL_IDENTIFIER,
    };
    const uint32_t wanted[] = {4, 0, 0, 0, 0};
    const struct lent text = lend(stand, words, text_len, 0);
    const struct lent tokens = lend(stand, records, sizeof records, 0);
    for (size_t record = 0; record < LENGTH(wanted); record++) {
        const idl_span span = idl_spelling(text.bytes, text_len, tokens.bytes, LENGTH(records), record);
        demand(span.length == wanted[record], "a spelling");
    }
    give_back(tokens);
    give_back(text);
}

static void test_tree(const struct row *row, enum stand stand) {
    const size_t text_len = strlen(row->text);
    uint32_t numbers[IDL_TOKEN_NUMBERS * NESTED_TOKENS(DEEPEST)];
    const idl_reply first = idl_read_tokens((const uint8_t *)row->text, text_len, numbers, LENGTH(numbers));
    if (first.number != IDL_ACCEPTED || row->reply.number == IDL_TOKEN_TABLE_FULL) {
        return;
    }
    const size_t tokens_len = IDL_TOKEN_NUMBERS * first.tokens;
    const struct lent tokens = lend(stand, numbers, tokens_len * sizeof *numbers, 0);
    const struct lent tree = lend_table(stand, row->tree_len);
    const idl_reply reply =
        idl_read_tree(tokens.bytes, tokens_len, first.tokens, text_len, tree.bytes, row->tree_len, row->depth);
    demand(same_reply(reply, row->reply), row->text);
    demand(is_as_replied(tree.bytes, row->tree_len, reply.number, IDL_TREE_NUMBERS * reply.records), row->text);
    give_back(tree);
    give_back(tokens);
}

static void test_reader(const struct row *row, enum stand stand) {
    const size_t text_len = strlen(row->text);
    const struct lent text = lend(stand, row->text, text_len, 0);
    const struct lent tokens = lend_table(stand, row->tokens_len);
    const struct lent tree = lend_table(stand, row->tree_len);
    const idl_reply reply =
        idl_read(text.bytes, text_len, tokens.bytes, row->tokens_len, tree.bytes, row->tree_len, row->depth);
    demand(same_reply(reply, row->reply), row->text);
    demand(is_as_replied(tokens.bytes, row->tokens_len, reply.number, IDL_TOKEN_NUMBERS * reply.tokens), row->text);
    demand(is_as_replied(tree.bytes, row->tree_len, reply.number, IDL_TREE_NUMBERS * reply.records), row->text);
    give_back(tree);
    give_back(tokens);
    give_back(text);
}

/* The reply that a constant in so many parentheses gets at a depth setting. */
static idl_reply nested_reply(uint32_t depth, uint32_t setting, size_t text_len) {
    const uint32_t tokens = NESTED_TOKENS(depth);
    if (setting < 1 || setting > IDL_DEPTH_CEILING) {
        return (idl_reply){IDL_BAD_CALL, 0, 0, 0};
    }
    if (depth > setting) {
        return (idl_reply){IDL_TOO_DEEP, (uint32_t)strlen(NESTED_BEFORE) + setting, tokens, 0};
    }
    return (idl_reply){IDL_ACCEPTED, (uint32_t)text_len, tokens, NESTED_RECORDS(depth)};
}

/* Depths around the ceiling, at settings around it. */
static void test_nested(enum stand stand) {
    const uint32_t depths[] = {150, 199, 200, 201};
    const uint32_t settings[] = {64, 200, 201, UINT32_MAX};
    char text[sizeof NESTED_BEFORE + 2 * DEEPEST + sizeof "1;"];
    for (size_t at = 0; at < LENGTH(depths) * LENGTH(settings); at++) {
        const uint32_t depth = depths[at / LENGTH(settings)], setting = settings[at % LENGTH(settings)];
        char *const opening = text + strlen(strcpy(text, NESTED_BEFORE));
        memset(opening, '(', depth);
        opening[depth] = '1';
        memset(opening + depth + 1, ')', depth);
        strcpy(opening + 2 * depth + 1, ";");
        const uint32_t text_len = (uint32_t)strlen(text);
        const struct row row = {
            text, IDL_TOKEN_NUMBERS * NESTED_TOKENS(depth), IDL_TREE_NUMBERS * NESTED_RECORDS(depth), setting,
            {IDL_ACCEPTED, text_len, NESTED_TOKENS(depth), 0}, nested_reply(depth, setting, text_len),
        };
        test_tokens(&row, stand);
        test_tree(&row, stand);
        test_reader(&row, stand);
    }
}

/* Demands the right spelling of a kind: a keyword's, or none. */
static void test_keyword(uint32_t kind, uint32_t first, size_t count, char **keywords) {
    const char *const found = idl_keyword(kind);
    const int is_keyword = kind >= first && kind - first < count;
    demand((found != NULL) == is_keyword, "exactly the keywords have a spelling");
    demand(!is_keyword || strcmp(found, keywords[kind - first]) == 0, "the spelling of a keyword");
}

/* The smallest numbers, with many of more than 16 bits; the same with the top bit; and the largest. */
static void test_keywords(uint32_t first, size_t count, char **keywords) {
    for (uint32_t kind = 0; kind < KINDS_TRIED; kind++) {
        test_keyword(kind, first, count, keywords);
        test_keyword(kind | 1u << 31, first, count, keywords);
        test_keyword(UINT32_MAX - kind, first, count, keywords);
    }
}

int main(int count, char **words) {
    demand(count > 2, "usage: test KIND KEYWORD...");
    test_keywords((uint32_t)strtoul(words[1], NULL, 10), (size_t)count - 2, words + 2);
    for (int stand = HEAP; stand < STANDS; stand++) {
        test_spelling(stand);
        test_nested(stand);
        for (size_t at = 0; at < LENGTH(ROWS); at++) {
            test_tokens(&ROWS[at], stand);
            test_tree(&ROWS[at], stand);
            test_reader(&ROWS[at], stand);
        }
    }
    printf("the C test passed\n");
    return 0;
}
