/* The calls of the library over a program `syned` that was compiled without its proofs, which is started for each call: for those who only try
 * (`bash bindings/build.sh try`). SYNED_PROGRAM is the path of the program. */
#include "syned.h"
#include <stdio.h>
#include <stdlib.h>
#include <string.h>
#include <sys/wait.h>
#include <unistd.h>

/* What a run printed, and how it ended. The bytes are to be freed. */
struct printed {
    uint8_t *bytes;
    size_t length;
    uint8_t status;
};

static const struct printed failed = {NULL, 0, SYNED_FAILED};

/* Replaces this process by the program, with these files for its ends. */
static void become(const char *dialect, FILE *script, FILE *answer, FILE *reason) {
    if (dup2(fileno(script), 0) == 0 && dup2(fileno(answer), 1) == 1 && dup2(fileno(reason), 2) == 2) {
        execl(SYNED_PROGRAM, SYNED_PROGRAM, dialect, (char *)NULL);
    }
    _exit(SYNED_FAILED);
}

/* All that is in a file. */
static struct printed read_whole(FILE *file, uint8_t status) {
    struct printed whole = {NULL, 0, status};
    if (fseek(file, 0, SEEK_END) != 0 || ftell(file) < 0) {
        return failed;
    }
    whole.length = (size_t)ftell(file);
    rewind(file);
    whole.bytes = malloc(whole.length + 1);
    if (whole.bytes == NULL || fread(whole.bytes, 1, whole.length, file) != whole.length) {
        free(whole.bytes);
        return failed;
    }
    return whole;
}

/* What a run over these files prints, on its output or, if that is asked for, on its error output. */
static struct printed run_over(const char *dialect, FILE *script, FILE *answer, FILE *reason, int asks_reason) {
    int ended = 0;
    pid_t child = fork();
    if (child == 0) {
        become(dialect, script, answer, reason);
    }
    if (child < 0 || waitpid(child, &ended, 0) != child || !WIFEXITED(ended) || WEXITSTATUS(ended) >= SYNED_FAILED) {
        return failed;
    }
    return read_whole(asks_reason ? reason : answer, (uint8_t)WEXITSTATUS(ended));
}

/* The same over a script. */
static struct printed print(const char *dialect, const uint8_t *script, size_t length, int asks_reason) {
    FILE *ends[3] = {tmpfile(), tmpfile(), tmpfile()};
    struct printed printed = failed;
    if (ends[0] != NULL && ends[1] != NULL && ends[2] != NULL && fwrite(script, 1, length, ends[0]) == length && fflush(ends[0]) == 0) {
        rewind(ends[0]);
        printed = run_over(dialect, ends[0], ends[1], ends[2], asks_reason);
    }
    for (int at = 0; at < 3; at++) {
        if (ends[at] != NULL) {
            fclose(ends[at]);
        }
    }
    return printed;
}

/* Puts what was printed at the beginning of a room if it fits, and tells its length. */
static size_t put_into(struct printed printed, uint8_t *room, size_t room_length) {
    if (printed.bytes != NULL && printed.length <= room_length) {
        memcpy(room, printed.bytes, printed.length);
    }
    free(printed.bytes);
    return printed.length;
}

static uint8_t run(const char *dialect, const uint8_t *script, size_t script_length, uint8_t *room, size_t room_length, size_t *length) {
    struct printed answer = print(dialect, script, script_length, 0);
    *length = put_into(answer, room, room_length);
    return answer.status;
}

static size_t explain(const char *dialect, const uint8_t *script, size_t script_length, uint8_t *room, size_t room_length) {
    struct printed reason = print(dialect, script, script_length, 1);
    if (reason.length > 0 && reason.bytes[reason.length - 1] == '\n') {
        reason.length--;
    }
    return put_into(reason, room, room_length);
}

uint8_t syned_run(const uint8_t *script, size_t script_length, uint8_t *room, size_t room_length, size_t *length) {
    return run(NULL, script, script_length, room, room_length, length);
}

uint8_t syned_run_wide(const uint8_t *script, size_t script_length, uint8_t *room, size_t room_length, size_t *length) {
    return run("wide", script, script_length, room, room_length, length);
}

size_t syned_explain(const uint8_t *script, size_t script_length, uint8_t *room, size_t room_length) {
    return explain(NULL, script, script_length, room, room_length);
}

size_t syned_explain_wide(const uint8_t *script, size_t script_length, uint8_t *room, size_t room_length) {
    return explain("wide", script, script_length, room, room_length);
}
