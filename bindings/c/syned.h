/* syned: edits of syntax trees, from scripts. docs/SCRIPTS.md describes a script and its answer, docs/EMBEDDING.md these calls.
 *
 * No pointer may be null, also where a length is 0. The memory of `script` is only read, that of `room` and `length` belongs to nobody else
 * during the call. Nothing is kept between two calls, and several threads may call at a time. */
#ifndef SYNED_H
#define SYNED_H

#include <stddef.h>
#include <stdint.h>

#ifdef __cplusplus
extern "C" {
#endif

/* The version of this header. */
#define SYNED_VERSION "0.1.0"

/* The version of the library, which ends with a zero. */
const char *syned_version(void);

/* The exit statuses of `syned`. */
enum {
    SYNED_DONE = 0,       /* the edit was made */
    SYNED_REFUSED = 1,    /* a call of the script was refused */
    SYNED_BAD_SCRIPT = 2, /* a line is bad */
    SYNED_FAILED = 3      /* memory ran out */
};

/* Carries out a script, and puts the answer at the beginning of `room` if it fits. The result is the status; `*length` is how many bytes the
 * answer has, whether it fits or not, and 0 for SYNED_FAILED. If the answer doesn't fit, `room` stays as it was: call again with more. */
uint8_t syned_run(const uint8_t *script, size_t script_length, uint8_t *room, size_t room_length, size_t *length);

/* Puts why a script has no edit at the beginning of `room` if it fits: a sentence in UTF-8, without a newline or a zero. The result is how many
 * bytes it has, whether it fits or not: 0 if the script has an edit. */
size_t syned_explain(const uint8_t *script, size_t script_length, uint8_t *room, size_t room_length);

/* The same two for scripts of the wide dialect, which `syned wide` reads. */
uint8_t syned_run_wide(const uint8_t *script, size_t script_length, uint8_t *room, size_t room_length, size_t *length);
size_t syned_explain_wide(const uint8_t *script, size_t script_length, uint8_t *room, size_t room_length);

/* Bytes that stand in the memory of somebody else, as in an answer. */
struct syned_bytes {
    const uint8_t *start;
    size_t length;
};

/* Puts a text as a script has it between two quotes at the beginning of `room` if it fits, with the quotes; else `room` stays as it was. The
 * result is how many bytes it has, whether it fits or not. */
size_t syned_escape(struct syned_bytes text, uint8_t *room, size_t room_length);

/* The way back, from a field of an answer such as "a\tb" with its quotes. The result is how many bytes the text has, whether it fits or not, and
 * SYNED_NO_TEXT for what is not such a field. */
#define SYNED_NO_TEXT SIZE_MAX
size_t syned_unescape(struct syned_bytes field, uint8_t *room, size_t room_length);

/* Each of these takes the first part off `*rest`, puts it into `*part`, and gives whether there was one: the line of an answer, without its newline;
 * the field of a line (a text between quotes is one, with its quotes); the number of a child on a path, of which the path `.` of a root has none.
 * `syned_next_child` also gives 0 for what is no number, and then takes nothing off: `rest->length` is 0 exactly at the end of a path. It reads the
 * two numbers of a line `edit` too. Of a line `tree` the expression is what is left behind the first field. */
int syned_next_line(struct syned_bytes *rest, struct syned_bytes *part);
int syned_next_field(struct syned_bytes *rest, struct syned_bytes *part);
int syned_next_child(struct syned_bytes *rest, size_t *part);

/* Takes the range off a field such as 1/0@8..9, of which the path is left, and gives whether it has one: without one nothing changes. */
int syned_take_range(struct syned_bytes *field, size_t *start, size_t *end);

/* Whether bytes are those of a word that ends with a zero. */
int syned_is(struct syned_bytes bytes, const char *word);

#ifdef __cplusplus
}
#endif

#endif
