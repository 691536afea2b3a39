/* Reads settings files, line by line. Layer 0. */
#include "settings.h"

#include <errno.h>
#include <stdarg.h>
#include <stdio.h>
#include <stdlib.h>
#include <string.h>

bool settings_fault(struct fault *fault, size_t line, const char *words, ...)
{
    va_list values;
    va_start(values, words);
    fault->line = line;
    vsnprintf(fault->reason, sizeof fault->reason, words, values);
    va_end(values);
    return false;
}

struct shown settings_show(const char *text)
{
    struct shown shown;
    size_t i = 0, most = sizeof shown.text - 4;
    for (; i < most && text[i] != '\0'; i++)
        shown.text[i] = text[i] >= 0x20 && text[i] <= 0x7e ? text[i] : '?';
    strcpy(shown.text + i, text[i] == '\0' ? "" : "...");
    return shown;
}

static char small(char letter)
{
    return letter >= 'A' && letter <= 'Z' ? (char)(letter + 'a' - 'A') : letter;
}

bool settings_same(const char *key, const char *other)
{
    while (*key != '\0' && small(*key) == small(*other))
        key++, other++;
    return small(*key) == small(*other);
}

const struct setting *settings_find(const struct section *section, const char *key)
{
    for (size_t i = 0; section != NULL && i < section->count; i++)
        if (settings_same(section->settings[i].key, key))
            return &section->settings[i];
    return NULL;
}

static bool is_blank(char byte)
{
    return byte == ' ' || byte == '\t' || byte == '\r';
}

/* The text without the blanks around it, ended by a NUL in place. */
static char *trimmed(char *text, char *end)
{
    while (text < end && is_blank(*text))
        text++;
    while (end > text && is_blank(end[-1]))
        end--;
    *end = '\0';
    return text;
}

/* ---- a line */

static bool take_section(struct settings *settings, char *line, size_t number, struct fault *fault)
{
    size_t length = strlen(line), taken = 0;
    if (line[length - 1] != ']')
        return settings_fault(fault, number, "the name of a section ends with ], and nothing stands behind it");
    char *name = trimmed(line + 1, line + length - 1);
    if (*name == '\0')
        return settings_fault(fault, number, "a section without a name");
    if (settings->count == MOST_SECTIONS)
        return settings_fault(fault, number, "more than %d sections", MOST_SECTIONS);
    if (settings->count > 0)
        taken = (size_t)(settings->sections[settings->count - 1].settings - settings->all) + settings->sections[settings->count - 1].count;
    settings->sections[settings->count++] = (struct section){name, number, settings->all + taken, 0};
    return true;
}

static bool take_setting(struct settings *settings, char *line, size_t number, struct fault *fault)
{
    char *equals = strchr(line, '=');
    if (equals == NULL)
        return settings_fault(fault, number, "neither [SECTION] nor Key=Value: there is no = in it");
    char *value = trimmed(equals + 1, equals + 1 + strlen(equals + 1)), *key = trimmed(line, equals);
    if (*key == '\0')
        return settings_fault(fault, number, "there is no key before =");
    if (*value == '\0')
        return settings_fault(fault, number, "%s has no value", settings_show(key).text);
    if (settings->count == 0)
        return settings_fault(fault, number, "%s stands before the first section", settings_show(key).text);
    struct section *section = &settings->sections[settings->count - 1];
    const struct setting *before = settings_find(section, key);
    if (section->count == MOST_SETTINGS)
        return settings_fault(fault, number, "more than %d settings in a section", MOST_SETTINGS);
    if (before != NULL)
        return settings_fault(fault, number, "%s a second time: it is in line %zu already", settings_show(key).text, before->line);
    settings->all[section->settings - settings->all + (ptrdiff_t)section->count++] = (struct setting){key, value, number};
    return true;
}

static bool take_line(struct settings *settings, char *start, char *end, size_t number, struct fault *fault)
{
    if (end - start > LONGEST_LINE)
        return settings_fault(fault, number, "it has %zu bytes, and a line has at most %d", (size_t)(end - start), LONGEST_LINE);
    if (memchr(start, '\0', (size_t)(end - start)) != NULL)
        return settings_fault(fault, number, "there is a NUL byte in it");
    char *line = trimmed(start, end);
    switch (*line) {
    case '\0':
    case '#': return true;
    case '[': return take_section(settings, line, number, fault);
    default: return take_setting(settings, line, number, fault);
    }
}

/* ---- the whole */

/* No more sections, and no more settings, than lines. */
static bool make_room(struct settings *settings, const char *text, size_t length)
{
    settings->lines = 1;
    for (size_t i = 0; i + 1 < length; i++)
        settings->lines += text[i] == '\n';
    settings->sections = calloc(settings->lines, sizeof *settings->sections);
    settings->all = calloc(settings->lines, sizeof *settings->all);
    return settings->sections != NULL && settings->all != NULL;
}

static bool take_lines(struct settings *settings, size_t length, struct fault *fault)
{
    char *end = settings->text + length, *start = settings->text, *stop;
    for (size_t number = 1; start < end; number++, start = stop + 1) {
        stop = memchr(start, '\n', (size_t)(end - start));
        if (stop == NULL)
            stop = end;
        if (!take_line(settings, start, stop, number, fault))
            return false;
    }
    return true;
}

bool settings_parse(struct settings *settings, char *text, size_t length, struct fault *fault)
{
    *settings = (struct settings){.text = text};
    bool good = make_room(settings, text, length) || settings_fault(fault, 0, "%s", strerror(ENOMEM));
    if (good && take_lines(settings, length, fault))
        return true;
    settings_free(settings);
    return false;
}

void settings_free(struct settings *settings)
{
    free(settings->sections);
    free(settings->all);
    free(settings->text);
    *settings = (struct settings){.text = NULL};
}

/* As much of a file as is looked at: one byte more than a file may have. Gives how much, or -1, and errno says why. */
static long read_text(const char *file, char *text)
{
    FILE *from = fopen(file, "rb");
    if (from == NULL)
        return -1;
    size_t length = fread(text, 1, LARGEST_FILE + 1, from);
    int why = ferror(from) ? errno : 0;
    fclose(from);
    errno = why;
    return why == 0 ? (long)length : -1;
}

bool settings_read(struct settings *settings, const char *file, struct fault *fault)
{
    char *text = malloc(LARGEST_FILE + 2);
    long length = text == NULL ? -1 : read_text(file, text);
    if (length >= 0 && length <= LARGEST_FILE)
        return settings_parse(settings, text, (size_t)length, fault);
    settings_fault(fault, 0, "%s", length < 0 ? strerror(errno) : "it has more than 1048576 bytes, and a settings file has at most that many");
    free(text);
    return false;
}
