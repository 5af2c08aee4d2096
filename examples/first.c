/* first TEXT: replaces each number 1 of a list of numbers by the name `one`, with syned. TEXT has numbers, and any other characters between them.
 *
 *     bash bindings/build.sh
 *     cc -Ibindings/c examples/first.c bindings/out/libsyned.a -o first
 *     ./first '(1, 21, 1)'        prints (one, 21, one) */
#include "syned.h"
#include <ctype.h>
#include <stdio.h>
#include <stdlib.h>
#include <string.h>

enum { ROOM = 65536 };

static uint8_t script[ROOM];
static size_t written;

/* So many more bytes are written; if they do not fit, the text is too long, which ends the program. */
static void advance(size_t count) {
    if (count > ROOM - written) {
        fputs("the text is too long\n", stderr);
        exit(2);
    }
    written += count;
}

static void add(const char *line) {
    size_t length = strlen(line);
    if (length <= ROOM - written) memcpy(script + written, line, length);
    advance(length);
}

/* Adds a token, whose text may have any characters. */
static void add_token(const char *kind, const char *text, size_t length) {
    struct syned_bytes bytes = {(const uint8_t *)text, length};
    add(" ");
    add(kind);
    advance(syned_escape(bytes, script + written, ROOM - written));
}

static const char *kind_of(char first) {
    if (isdigit((unsigned char)first)) return "INT_NUMBER";
    if (first == ',') return "COMMA";
    if (first == '(') return "L_PAREN";
    if (first == ')') return "R_PAREN";
    return "WHITESPACE";
}

/* How long the token is with which a text begins: all digits of a number, else one character in UTF-8. */
static size_t token_length(const char *text) {
    size_t length = 1;
    if (isdigit((unsigned char)text[0])) {
        while (isdigit((unsigned char)text[length])) length++;
    } else {
        while (((unsigned char)text[length] & 0xC0) == 0x80) length++;
    }
    return length;
}

/* The line of the tree: one node with a token for each number and each character between them. */
static void write_tree(const char *text) {
    add("tree L (ARG_LIST");
    for (const char *rest = text; *rest != '\0'; rest += token_length(rest)) add_token(kind_of(*rest), rest, token_length(rest));
    add(")\ntree N (NAME_REF IDENT\"one\")\nedit R L\n");
}

/* A line for each number 1. */
static void write_changes(const char *text) {
    int slot = 0;
    for (const char *rest = text; *rest != '\0'; rest += token_length(rest), slot++) {
        if (token_length(rest) == 1 && *rest == '1') {
            char line[64];
            snprintf(line, sizeof line, "replace R/%d N\n", slot);
            add(line);
        }
    }
    add("finish\n");
}

/* Prints the text of an answer: the second field of its first line. */
static void print_text(struct syned_bytes answer) {
    static uint8_t text[ROOM];
    struct syned_bytes line, field;
    syned_next_line(&answer, &line);
    syned_next_field(&line, &field);
    syned_next_field(&line, &field);
    size_t length = syned_unescape(field, text, ROOM);
    fwrite(text, 1, length, stdout);
    putchar('\n');
}

int main(int count, char **arguments) {
    static uint8_t answer[ROOM];
    size_t length = 0;
    if (count != 2) {
        fputs("first TEXT\n", stderr);
        return 2;
    }
    write_tree(arguments[1]);
    write_changes(arguments[1]);
    uint8_t status = syned_run(script, written, answer, ROOM, &length);
    if (status != SYNED_DONE || length > ROOM) {
        size_t said = syned_explain(script, written, answer, ROOM);
        fprintf(stderr, "%.*s\n", (int)(said <= ROOM ? said : 0), (const char *)answer);
        return status;
    }
    print_text((struct syned_bytes){answer, length});
    return 0;
}
