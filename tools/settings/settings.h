/* A settings file as QuickFIX has them, written by hand: sections of keys and values, each with its line. Layer 0.
 *
 *     # a comment
 *     [DEFAULT]
 *     Venue=V
 *     [MARKET]
 *     Code=350
 *
 * A line has the name of a section in brackets, or a key and its value with = between them, or a comment from # on, or nothing. Blanks
 * around a name, a key or a value do not count, nor does a CR before the LF. A key may be in large or small letters. Which names and keys
 * there are, this reader does not know: that is for whoever uses the sections. */
#ifndef SETTINGS_H
#define SETTINGS_H

#include <stdbool.h>
#include <stddef.h>

#ifdef __cplusplus
extern "C" {
#endif

/* What a file may have: bytes, and bytes in a line; sections, and settings in one of them. */
enum { LARGEST_FILE = 1048576, LONGEST_LINE = 1024, MOST_SECTIONS = 10000, MOST_SETTINGS = 256 };

/* What is wrong with a file: the line, from 1, and the reason; line 0 where the file cannot be read at all. */
struct fault {
    size_t line;
    char reason[256];
};

struct setting {
    const char *key, *value; /* neither is empty */
    size_t line;
};

struct section {
    const char *name;
    size_t line;
    const struct setting *settings; /* no two have the same key */
    size_t count;
};

struct settings {
    struct section *sections;
    size_t count;
    size_t lines;        /* of the file, at least 1 */
    struct setting *all; /* of all sections, one behind the other */
    char *text;
};

/* Reads a file. False where it cannot be read or is no settings file, with the first fault; there is nothing to free then. */
bool settings_read(struct settings *settings, const char *file, struct fault *fault);

/* The same of a text, which has room for one byte more and belongs to the settings from here on, whatever comes back. */
bool settings_parse(struct settings *settings, char *text, size_t length, struct fault *fault);

void settings_free(struct settings *settings);

/* The setting of this key; NULL where the section has none, or there is no section (NULL). */
const struct setting *settings_find(const struct section *section, const char *key);

/* Whether two keys are the same, large or small letters alike. */
bool settings_same(const char *key, const char *other);

/* Says what is wrong, in the way of printf; always false. */
#ifdef __GNUC__
__attribute__((format(printf, 3, 4)))
#endif
bool settings_fault(struct fault *fault, size_t line, const char *words, ...);

/* A text that comes from a file as it can stand in a reason: what a terminal might not print is shown as ?, and a long one is cut. */
struct shown {
    char text[44];
};
struct shown settings_show(const char *text);

#ifdef __cplusplus
}
#endif

#endif
