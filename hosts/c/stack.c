/*
 * Prints the bytes of stack that a whole call on a text takes, beyond those of a thread that does nothing: it runs on
 * a thread whose stack was filled with a pattern before. Then it runs on a thread with no more stack than the header
 * asks for, below which lies a page that cannot be touched.
 *
 * Usage: stack FILE DEPTH
 */
#define _DEFAULT_SOURCE
#include "idl.h"

#include <pthread.h>
#include <stdio.h>
#include <stdlib.h>
#include <string.h>
#include <sys/mman.h>

#define PAGE 4096
#define PATTERN 0xa5
#define AMPLE (1 << 20)
#define STATED (IDL_STACK_KB * 1024)

static void demand(int holds, const char *what) {
    if (!holds) {
        fprintf(stderr, "%s\n", what);
        exit(1);
    }
}

struct call {
    uint8_t *text;
    size_t text_len;
    uint32_t *tokens;
    size_t tokens_len;
    uint32_t *tree;
    size_t tree_len;
    uint32_t depth;
    idl_reply reply;
};

static void *whole_call(void *argument) {
    struct call *const call = argument;
    call->reply = idl_read(call->text, call->text_len, call->tokens, call->tokens_len, call->tree, call->tree_len,
                           call->depth);
    return argument;
}

static void *nothing(void *argument) {
    return argument;
}

/* The bytes that a thread touches of a stack of this size. */
static size_t touched(size_t size, void *(*start)(void *), void *argument) {
    pthread_attr_t attributes;
    pthread_t thread;
    uint8_t *const pages = mmap(NULL, PAGE + size, PROT_READ | PROT_WRITE, MAP_PRIVATE | MAP_ANONYMOUS, -1, 0);
    demand(pages != MAP_FAILED && mprotect(pages, PAGE, PROT_NONE) == 0, "pages can be had");
    uint8_t *const stack = pages + PAGE;
    memset(stack, PATTERN, size);
    demand(pthread_attr_init(&attributes) == 0 && pthread_attr_setstack(&attributes, stack, size) == 0 &&
               pthread_create(&thread, &attributes, start, argument) == 0 && pthread_join(thread, NULL) == 0,
           "a thread runs");
    pthread_attr_destroy(&attributes);
    size_t untouched = 0;
    while (untouched < size && stack[untouched] == PATTERN) {
        untouched++;
    }
    munmap(pages, PAGE + size);
    return size - untouched;
}

int main(int count, char **words) {
    struct call call = {0};
    demand(count == 3, "usage: stack FILE DEPTH");
    FILE *const file = fopen(words[1], "rb");
    call.text = malloc(IDL_TEXT_CEILING);
    demand(file != NULL && call.text != NULL, "the file can be read");
    call.text_len = fread(call.text, 1, IDL_TEXT_CEILING, file);
    fclose(file);
    call.tokens_len = IDL_TOKEN_NUMBERS * call.text_len;
    call.tokens = malloc((call.tokens_len + 1) * sizeof *call.tokens);
    call.tree_len = 2 * IDL_TREE_NUMBERS * call.text_len;
    call.tree = malloc((call.tree_len + 1) * sizeof *call.tree);
    demand(call.tokens != NULL && call.tree != NULL, "the heap has room");
    call.depth = (uint32_t)strtoul(words[2], NULL, 10);

    printf("%zu\n", touched(AMPLE, whole_call, &call) - touched(AMPLE, nothing, NULL));
    demand(call.reply.number == IDL_ACCEPTED, "the text is accepted");
    call.reply.number = IDL_BAD_CALL;
    touched(STATED, whole_call, &call);
    demand(call.reply.number == IDL_ACCEPTED, "the text is accepted on the stated stack");
    free(call.text);
    free(call.tokens);
    free(call.tree);
    return 0;
}
