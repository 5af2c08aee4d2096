/* run_scripts FOLDER [wide]: asks syned for the answer to each NUMBER.script of a folder that bindings/scripts.py filled, with too little room
 * and with enough, and compares status, answer and sentence; takes each answer apart, and compares what it is put together from; on 8 threads at a
 * time, each over all scripts. With `wide` they are of that dialect. */
#include "syned.h"
#include <pthread.h>
#include <stdio.h>
#include <stdlib.h>
#include <string.h>

enum { THREADS = 8 };

static const char *folder;
static uint8_t (*run)(const uint8_t *, size_t, uint8_t *, size_t, size_t *) = syned_run;
static size_t (*explain)(const uint8_t *, size_t, uint8_t *, size_t) = syned_explain;

struct bytes {
    uint8_t *data; /* never null */
    size_t length;
};

/* The bytes of FOLDER/NUMBER.ENDING; data is null if there is no such file. */
static struct bytes read_file(size_t number, const char *ending) {
    char path[4096];
    struct bytes read = {NULL, 0};
    snprintf(path, sizeof path, "%s/%zu.%s", folder, number, ending);
    FILE *file = fopen(path, "rb");
    if (file == NULL) {
        return read;
    }
    fseek(file, 0, SEEK_END);
    read.length = (size_t)ftell(file);
    rewind(file);
    read.data = malloc(read.length + 1);
    if (read.data == NULL || fread(read.data, 1, read.length, file) != read.length) {
        exit(2);
    }
    fclose(file);
    return read;
}

static int is(const uint8_t *room, size_t length, struct bytes wanted) {
    return length == wanted.length && memcmp(room, wanted.data, length) == 0;
}

/* Whether a room without enough bytes is left as it was, and the length told all the same. */
static int is_told_without_room(struct bytes script, struct bytes answer) {
    uint8_t room = 7;
    size_t length = 1;
    run(script.data, script.length, &room, answer.length > 1 ? 1 : 0, &length);
    return length == answer.length && room == 7;
}

/* Adds bytes to what an answer is put together from. */
static uint8_t *add(uint8_t *out, const void *bytes, size_t length) {
    memcpy(out, bytes, length);
    return out + length;
}

/* A field of an answer from its parts: the bytes of a text without its escapes, the numbers of a path and its range, or a word. */
static uint8_t *put_field(uint8_t *out, struct syned_bytes field) {
    size_t start, end;
    int has_range = syned_take_range(&field, &start, &end);
    uint8_t *text = malloc(field.length + 1);
    size_t length = text == NULL ? SYNED_NO_TEXT : syned_unescape(field, text, field.length);
    size_t child = 0;
    if (length != SYNED_NO_TEXT) {
        /* Nothing is written where a byte is missing. */
        *out = 7;
        size_t needed = syned_escape((struct syned_bytes){text, length}, out, field.length - 1);
        out = *out == 7 && needed == field.length ? out + syned_escape((struct syned_bytes){text, length}, out, needed) : out;
    } else if (field.length != 0 && field.start[0] >= '0' && field.start[0] <= '9') {
        for (int first = 1; syned_next_child(&field, &child); first = 0) {
            out += sprintf((char *)out, first ? "%zu" : "/%zu", child);
        }
    } else if (syned_is(field, ".")) {
        out = syned_next_child(&field, &child) || field.length != 0 ? out : add(out, ".", 1);
    } else {
        out = add(out, field.start, field.length);
    }
    free(text);
    return has_range ? out + sprintf((char *)out, "@%zu..%zu", start, end) : out;
}

/* Whether fields that have no range stay as they are. */
static int are_without_range(void) {
    static const char *const fields[] = {"", ".", "1/0", "0@", "0@1", "0@1.", "0@1..", "0@..2", "0@1...2", "0@1..2 ", "\"0@1..2\"",
                                         "0@1..99999999999999999999"};
    for (size_t at = 0; at < sizeof fields / sizeof *fields; at++) {
        struct syned_bytes field = {(const uint8_t *)fields[at], strlen(fields[at])};
        size_t start = 7, end = 7;
        if (syned_take_range(&field, &start, &end) || !syned_is(field, fields[at]) || start != 7 || end != 7) {
            printf("wrong: a range in %s\n", fields[at]);
            return 0;
        }
    }
    return 1;
}

/* Whether the lines, fields, texts and paths of an answer are what it consists of. */
static int is_taken_apart(struct bytes answer) {
    uint8_t *made = malloc(2 * answer.length + 64);
    uint8_t *out = made;
    struct syned_bytes rest = {answer.data, answer.length}, line, field;
    if (made == NULL) {
        exit(2);
    }
    while (syned_next_line(&rest, &line)) {
        for (int first = 1; syned_next_field(&line, &field); first = 0) {
            out = first ? out : add(out, " ", 1);
            out = put_field(out, field);
            if (first && syned_is(field, "tree")) {
                out = add(add(out, " ", 1), line.start, line.length);
                line.length = 0;
            }
        }
        out = add(out, "\n", 1);
    }
    int right = is(made, (size_t)(out - made), answer);
    free(made);
    return right;
}

static int is_right(struct bytes script, struct bytes answer, struct bytes said, int status) {
    size_t length = 1;
    uint8_t *room = malloc(answer.length + said.length + 1);
    if (room == NULL) {
        exit(2);
    }
    int right = run(script.data, script.length, room, answer.length, &length) == status && is(room, length, answer);
    length = explain(script.data, script.length, room, said.length);
    right = right && is(room, length, said) && is_told_without_room(script, answer) && is_taken_apart(answer);
    free(room);
    return right;
}

struct tally {
    size_t right;
    size_t wrong;
};

static void *run_all(void *out) {
    struct tally tally = {0, 0};
    for (size_t number = 0;; number++) {
        struct bytes script = read_file(number, "script");
        if (script.data == NULL) {
            break;
        }
        struct bytes answer = read_file(number, "answer");
        struct bytes said = read_file(number, "said");
        struct bytes status = read_file(number, "status");
        if (is_right(script, answer, said, status.data[0] - '0')) {
            tally.right++;
        } else {
            tally.wrong++;
            printf("wrong: %zu.script\n", number);
        }
        free(script.data);
        free(answer.data);
        free(said.data);
        free(status.data);
    }
    *(struct tally *)out = tally;
    return NULL;
}

int main(int count, char **arguments) {
    pthread_t threads[THREADS];
    struct tally tallies[THREADS];
    struct tally all = {0, 0};
    if (count != 2 && (count != 3 || strcmp(arguments[2], "wide") != 0)) {
        return 2;
    }
    if (count == 3) {
        run = syned_run_wide;
        explain = syned_explain_wide;
    }
    folder = arguments[1];
    for (int i = 0; i < THREADS; i++) {
        if (pthread_create(&threads[i], NULL, run_all, &tallies[i]) != 0) {
            return 2;
        }
    }
    for (int i = 0; i < THREADS; i++) {
        pthread_join(threads[i], NULL);
        all.right += tallies[i].right;
        all.wrong += tallies[i].wrong;
    }
    printf("c: %zu of %zu answers as expected, on %d threads\n", all.right, all.right + all.wrong, THREADS);
    return all.wrong != 0 || all.right == 0 || !are_without_range();
}
