/*
 * Reads a file and prints its tokens and its tree records, a line each; or FILE:byte: and what is wrong.
 *
 * Usage: example FILE
 */
#include "idl.h"

#include <stdio.h>
#include <stdlib.h>
#include <string.h>

static const char *const MEANINGS[] = {
    [IDL_ACCEPTED] = "accepted",
    [IDL_BAD_CALL] = "the text is too long or the depth setting out of range",
    [IDL_NO_LEXEME] = "no token starts here",
    [IDL_OPEN] = "this comment or literal is not closed",
    [IDL_BAD_LITERAL] = "this literal is bad",
    [IDL_KEYWORD_CASE] = "this is a keyword in another case",
    [IDL_TOKEN_TABLE_FULL] = "the token table is full",
    [IDL_GRAMMAR] = "no definition goes on like this",
    [IDL_TOO_DEEP] = "this is nested too deep",
    [IDL_TREE_TABLE_FULL] = "the tree table is full",
};

/* The bytes of a file, at most one more than the reader takes; null if there are none to be had. */
static uint8_t *file_bytes(const char *name, size_t *length) {
    FILE *file = fopen(name, "rb");
    uint8_t *text = malloc(IDL_TEXT_CEILING + 1);
    if (file == NULL || text == NULL) {
        free(text);
        text = NULL;
    } else {
        *length = fread(text, 1, IDL_TEXT_CEILING + 1, file);
    }
    if (file != NULL) {
        fclose(file);
    }
    return text;
}

static void print_tokens(const uint8_t *text, size_t text_len, const uint32_t *tokens, size_t tokens_len,
                         size_t count) {
    for (size_t record = 0; record < count; record++) {
        const idl_span span = idl_spelling(text, text_len, tokens, tokens_len, record);
        printf("%u %.*s\n", (unsigned)tokens[IDL_TOKEN_NUMBERS * record], (int)span.length,
               (const char *)text + span.first);
    }
}

static void print_tree(const uint32_t *tree, size_t count) {
    for (const uint32_t *record = tree; record < tree + IDL_TREE_NUMBERS * count; record += IDL_TREE_NUMBERS) {
        printf("rule %u, tokens %u to %u, %u records\n", (unsigned)record[0], (unsigned)record[1],
               (unsigned)record[2], (unsigned)record[3]);
    }
}

/* Says what is wrong. The tables are zero then, but a keyword in another case is as long as the keyword. */
static void print_refusal(const char *name, const uint8_t *text, idl_reply reply) {
    const char *const keyword = reply.number == IDL_KEYWORD_CASE ? idl_keyword(reply.tokens) : NULL;
    printf("%s:%u: ", name, (unsigned)reply.place);
    if (keyword == NULL) {
        printf("%s\n", MEANINGS[reply.number]);
    } else {
        const int length = (int)strlen(keyword);
        const char *const word = (const char *)text + reply.place;
        printf("'%.*s' differs only in case from the keyword '%s'; write '_%.*s' to use it as a name\n", length, word,
               keyword, length, word);
    }
}

/* Reads with room for a token a byte and two tree records a token, more than any text needs. */
static int read_and_print(const char *name, const uint8_t *text, size_t text_len) {
    const size_t tokens_len = IDL_TOKEN_NUMBERS * text_len;
    uint32_t *tokens = malloc((tokens_len + 1) * sizeof *tokens);
    const size_t tree_len = 2 * IDL_TREE_NUMBERS * text_len;
    uint32_t *tree = malloc((tree_len + 1) * sizeof *tree);
    int failed = 1;
    if (tokens != NULL && tree != NULL) {
        const idl_reply reply = idl_read(text, text_len, tokens, tokens_len, tree, tree_len, IDL_DEPTH_CEILING);
        failed = reply.number != IDL_ACCEPTED;
        if (failed) {
            print_refusal(name, text, reply);
        } else {
            print_tokens(text, text_len, tokens, tokens_len, reply.tokens);
            print_tree(tree, reply.records);
        }
    }
    free(tokens);
    free(tree);
    return failed;
}

int main(int count, char **words) {
    size_t text_len = 0;
    if (count != 2) {
        fprintf(stderr, "usage: example FILE\n");
        return 2;
    }
    uint8_t *text = file_bytes(words[1], &text_len);
    if (text == NULL) {
        fprintf(stderr, "%s: cannot be read\n", words[1]);
        return 2;
    }
    const int failed = read_and_print(words[1], text, text_len);
    free(text);
    return failed;
}
