/*
 * A proved reader of CORBA IDL (rules 1 to 99: the language with value types).
 *
 * A call lends a text, and tables of 32-bit numbers that the reader fills. Lengths of tables are counted in numbers.
 * The reader takes no memory besides, only stack, and keeps none of these pointers. No pointer is null, also where its
 * length is 0; a table that is filled overlaps nothing else that is lent.
 *
 * A token record is three numbers: kind, first byte, length in bytes. A tree record is four: rule of the grammar,
 * first token, one past the last token, records in its subtree with itself; children stand before their parent, left
 * to right. A table holds its length divided by 3 or 4, rounded down, records.
 *
 * C99 or C++11; link with libidl.a (x86-64).
 */
#ifndef IDL_H
#define IDL_H

#include <stddef.h>
#include <stdint.h>

#ifdef __cplusplus
extern "C" {
#endif

/* The longest text in bytes, and the largest depth setting; the smallest is 1. */
#define IDL_TEXT_CEILING 1048576
#define IDL_DEPTH_CEILING 200

/* A call needs at most 141 KB of stack at depth 200, where a KB is 1,024 bytes, and less at smaller settings. */
#define IDL_STACK_KB 141

#define IDL_TOKEN_NUMBERS 3
#define IDL_TREE_NUMBERS 4

/*
 * What a reply's number means, and its other numbers. The place is a byte of the text, or the text length.
 *
 * Accepted: the records stand at the front of the tables, and the numbers after them are as they were.
 * A bad call: nothing is changed.
 * Every other refusal: every number of the tables that the call fills is zero.
 */
enum idl_number {
    IDL_ACCEPTED = 0,         /* place: text length; both counts */
    IDL_BAD_CALL = 1,         /* text too long, or depth setting outside 1 to 200; place 0, counts 0 */
    IDL_NO_LEXEME = 2,        /* no lexeme starts at this place; counts 0 */
    IDL_OPEN = 3,             /* comment open at the end, or literal open at the end of its line; place: its start */
    IDL_BAD_LITERAL = 4,      /* bad literal, also by a byte outside 32 to 126; place: its start; counts 0 */
    IDL_KEYWORD_CASE = 5,     /* keyword in another case; place: its start; tokens: the keyword's kind; records 0 */
    IDL_TOKEN_TABLE_FULL = 6, /* place: text length; tokens: the number needed */
    IDL_GRAMMAR = 7,          /* no text goes on with the token here; or the text ends too early: its length */
    IDL_TOO_DEEP = 8,         /* the opening mark at this place would take the depth past the setting */
    IDL_TREE_TABLE_FULL = 9   /* place: text length; records: the number needed */
};

typedef struct {
    uint32_t number;  /* one of enum idl_number */
    uint32_t place;   /* in bytes */
    uint32_t tokens;  /* how many tokens the text has, for 0 and 6 to 9; the kind of a keyword, for 5 */
    uint32_t records; /* how many tree records it has, for 0 and 9 */
} idl_reply;

/* A part of a text; a bad record has length 0. */
typedef struct {
    uint32_t first;
    uint32_t length;
} idl_span;

/*
 * Kinds of token: 1 to 8 as below; keywords 16 to 63 in byte order of their spelling (FALSE is 16, const 26, long 40);
 * marks 64 to 87 in the order  ; { } : , :: = ( ) < > [ ] | ^ & >> << + - * / % ~
 */
enum idl_kind {
    IDL_IDENTIFIER = 1,
    IDL_INTEGER = 2,
    IDL_FLOATING = 3,
    IDL_FIXED = 4,
    IDL_CHARACTER = 5,
    IDL_WIDE_CHARACTER = 6,
    IDL_STRING = 7,
    IDL_WIDE_STRING = 8,
    IDL_FIRST_KEYWORD = 16,
    IDL_LAST_KEYWORD = 63,
    IDL_FIRST_MARK = 64
};

/* The spelling of the keyword of this kind; null for any other kind. */
static inline const char *idl_keyword(uint32_t kind) {
    static const char *const spellings[IDL_LAST_KEYWORD - IDL_FIRST_KEYWORD + 1] = {
        "FALSE", "Object", "TRUE", "ValueBase", "abstract", "any", "attribute", "boolean", "case", "char",
        "const", "context", "custom", "default", "double", "enum", "exception", "factory", "fixed", "float",
        "in", "inout", "interface", "local", "long", "module", "native", "octet", "oneway", "out", "private",
        "public", "raises", "readonly", "sequence", "short", "string", "struct", "supports", "switch",
        "truncatable", "typedef", "union", "unsigned", "valuetype", "void", "wchar", "wstring",
    };
    return kind >= IDL_FIRST_KEYWORD && kind <= IDL_LAST_KEYWORD ? spellings[kind - IDL_FIRST_KEYWORD] : NULL;
}

/* Reads the tokens of a text. Replies 0 to 6; 0 says nothing of the grammar, and its records are 0. */
idl_reply idl_read_tokens(const uint8_t *text, size_t text_len, uint32_t *tokens, size_t tokens_len);

/* The bytes of one token of a table; of length 0 if the table has no such record or its span leaves the text. */
idl_span idl_spelling(const uint8_t *text, size_t text_len, const uint32_t *tokens, size_t tokens_len, size_t record);

/*
 * Makes the tree from the first token_count records of a token table, which it only reads, for a text of this length.
 * Replies 0, 1 and 7 to 9; 1 also for a count above the table's records or above the text length.
 */
idl_reply idl_read_tree(const uint32_t *tokens, size_t tokens_len, size_t token_count, size_t text_len,
                        uint32_t *tree, size_t tree_len, uint32_t depth);

/* Reads a whole text into both tables. Replies 0 to 9. */
idl_reply idl_read(const uint8_t *text, size_t text_len, uint32_t *tokens, size_t tokens_len,
                   uint32_t *tree, size_t tree_len, uint32_t depth);

#ifdef __cplusplus
}
#endif

#endif
