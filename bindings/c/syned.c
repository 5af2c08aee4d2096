/* What a program in C needs round the two calls: texts of scripts, and answers taken apart. It allocates nothing. */
#include "syned.h"
#include <string.h>

/* What `bindings/build.sh try` adds to the version. */
#ifndef SYNED_HOW
#define SYNED_HOW ""
#endif

const char *syned_version(void) {
    return SYNED_VERSION SYNED_HOW;
}

/* The characters that a backslash stands before, and what each is behind it. */
static const char plain[] = "\n\r\t\"\\";
static const char escaped[] = "nrt\"\\";

/* A place in a room that may be too small: what does not fit is only counted. */
struct writer {
    uint8_t *room;
    size_t room_length;
    size_t length;
};

static void put(struct writer *out, uint8_t byte) {
    if (out->room != NULL && out->length < out->room_length) {
        out->room[out->length] = byte;
    }
    out->length++;
}

static void write_escaped(struct syned_bytes text, struct writer *out) {
    put(out, '"');
    for (size_t at = 0; at < text.length; at++) {
        const char *found = memchr(plain, text.start[at], sizeof plain - 1);
        if (found != NULL) {
            put(out, '\\');
        }
        put(out, found != NULL ? (uint8_t)escaped[found - plain] : text.start[at]);
    }
    put(out, '"');
}

size_t syned_escape(struct syned_bytes text, uint8_t *room, size_t room_length) {
    struct writer counted = {NULL, 0, 0};
    write_escaped(text, &counted);
    if (counted.length <= room_length) {
        struct writer out = {room, room_length, 0};
        write_escaped(text, &out);
    }
    return counted.length;
}

/* Whether the field is a text between quotes, written as far as it is one. */
static int write_plain(struct syned_bytes field, struct writer *out) {
    if (field.length < 2 || field.start[0] != '"' || field.start[field.length - 1] != '"') {
        return 0;
    }
    for (size_t at = 1; at < field.length - 1; at++) {
        uint8_t byte = field.start[at];
        if (byte == '\\') {
            const char *found = at + 1 < field.length - 1 ? memchr(escaped, field.start[++at], sizeof escaped - 1) : NULL;
            if (found == NULL) {
                return 0;
            }
            byte = (uint8_t)plain[found - escaped];
        } else if (byte == '"') {
            return 0;
        }
        put(out, byte);
    }
    return 1;
}

size_t syned_unescape(struct syned_bytes field, uint8_t *room, size_t room_length) {
    struct writer counted = {NULL, 0, 0};
    if (!write_plain(field, &counted)) {
        return SYNED_NO_TEXT;
    }
    if (counted.length <= room_length) {
        struct writer out = {room, room_length, 0};
        write_plain(field, &out);
    }
    return counted.length;
}

/* Takes `length` bytes off for the part, and one more if there is one, which ends it. */
static void take(struct syned_bytes *rest, size_t length, struct syned_bytes *part) {
    size_t taken = length < rest->length ? length + 1 : length;
    part->start = rest->start;
    part->length = length;
    rest->start += taken;
    rest->length -= taken;
}

int syned_next_line(struct syned_bytes *rest, struct syned_bytes *part) {
    if (rest->length == 0) {
        return 0;
    }
    const uint8_t *end = memchr(rest->start, '\n', rest->length);
    take(rest, end != NULL ? (size_t)(end - rest->start) : rest->length, part);
    return 1;
}

int syned_next_field(struct syned_bytes *rest, struct syned_bytes *part) {
    if (rest->length == 0) {
        return 0;
    }
    int quoted = 0;
    size_t length = 0;
    for (; length < rest->length && (quoted || rest->start[length] != ' '); length++) {
        if (rest->start[length] == '"') {
            quoted = !quoted;
        } else if (quoted && rest->start[length] == '\\' && length + 1 < rest->length) {
            length++;
        }
    }
    take(rest, length, part);
    return 1;
}

/* How many digits bytes begin with, and the number that these are: 0 if there are none or it is too large. */
static size_t read_number(struct syned_bytes bytes, size_t *number) {
    size_t length = 0;
    size_t read = 0;
    for (; length < bytes.length && bytes.start[length] >= '0' && bytes.start[length] <= '9'; length++) {
        size_t digit = (size_t)(bytes.start[length] - '0');
        if (read > (SIZE_MAX - digit) / 10) {
            return 0;
        }
        read = 10 * read + digit;
    }
    *number = read;
    return length;
}

int syned_next_child(struct syned_bytes *rest, size_t *part) {
    if (syned_is(*rest, ".")) {
        rest->start++;
        rest->length = 0;
    }
    size_t number = 0;
    size_t length = read_number(*rest, &number);
    if (length == 0 || (length < rest->length && rest->start[length] != '/')) {
        return 0;
    }
    struct syned_bytes taken;
    take(rest, length, &taken);
    *part = number;
    return 1;
}

int syned_take_range(struct syned_bytes *field, size_t *start, size_t *end) {
    size_t path = 0;
    while (path < field->length && field->start[path] != '@') {
        path++;
    }
    if (path == field->length) {
        return 0;
    }
    struct syned_bytes rest = {field->start + path + 1, field->length - path - 1};
    size_t first, last;
    size_t length = read_number(rest, &first);
    if (length == 0 || rest.length - length < 2 || memcmp(rest.start + length, "..", 2) != 0) {
        return 0;
    }
    rest = (struct syned_bytes){rest.start + length + 2, rest.length - length - 2};
    length = read_number(rest, &last);
    if (length == 0 || length != rest.length) {
        return 0;
    }
    field->length = path;
    *start = first;
    *end = last;
    return 1;
}

int syned_is(struct syned_bytes bytes, const char *word) {
    return bytes.length == strlen(word) && memcmp(bytes.start, word, bytes.length) == 0;
}
