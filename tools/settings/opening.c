/* Makes of each section [MARKET] what a market is opened with. Layer 1. */
#include "opening.h"

#include <errno.h>
#include <stdlib.h>
#include <string.h>

#include "kamurjesh.h"

/* ---- the words of a file */

static const char *const keys[] = {"Kind", "Venue", "Port", "Code", "Symbol", "FirstNumber"};
enum { KEYS = sizeof keys / sizeof *keys };
#define KEYS_IN_WORDS "Kind, Venue, Port, Code or Symbol, FirstNumber, MPID n"

static const struct {
    const char *name;
    uint64_t mode;
} modes[] = {
    {"cancel-newest", KAMURJESH_CANCEL_NEWEST},
    {"cancel-oldest", KAMURJESH_CANCEL_OLDEST},
    {"decrement", KAMURJESH_DECREMENT},
};
enum { MODES = sizeof modes / sizeof *modes };

static const char *const section_names[] = {"DEFAULT", "MARKET", "SESSION"};
enum { SECTION_NAMES = sizeof section_names / sizeof *section_names };

static bool is_section(const struct section *section, const char *name)
{
    return strcmp(section->name, name) == 0;
}

/* What stands behind MPID and a blank in a key; NULL where the key is another. */
static const char *mpid_in(const char *key)
{
    char word[6] = "";
    strncpy(word, key, 5);
    return settings_same(word, "MPID ") ? key + 5 : NULL;
}

static bool is_key(const char *key)
{
    for (size_t i = 0; i < KEYS; i++)
        if (settings_same(key, keys[i]))
            return true;
    return mpid_in(key) != NULL;
}

/* ---- values */

static bool has_only(const char *text, char low, char high)
{
    while (*text >= low && *text <= high)
        text++;
    return *text == '\0';
}

/* A number of at most nine digits, from 1 to a bound below 2^63; 0 where the text is none. */
static uint64_t number_up_to(const char *text, uint64_t most)
{
    uint64_t number = 0;
    if (strlen(text) > 9 || !has_only(text, '0', '9'))
        return 0;
    for (; *text != '\0'; text++)
        number = 10 * number + (uint64_t)(*text - '0');
    return number <= most ? number : 0;
}

/* A text of 1 to a few characters, without blanks. */
static bool take_text(char *to, size_t most, const struct setting *from, struct fault *fault)
{
    if (strlen(from->value) > most || !has_only(from->value, 0x21, 0x7e))
        return settings_fault(fault, from->line, "%s is no %s: it has 1 to %zu characters, 21 to 7E hex", settings_show(from->value).text,
                              from->key, most);
    strcpy(to, from->value);
    return true;
}

/* ---- a market */

/* A section [MARKET], and [DEFAULT] or NULL. */
struct said {
    const struct section *own, *usual;
};

/* The setting of a key; NULL where neither says it. */
static const struct setting *found(struct said said, const char *key)
{
    const struct setting *own = settings_find(said.own, key);
    return own != NULL ? own : settings_find(said.usual, key);
}

/* The same of a key that must be there. */
static const struct setting *needed(struct said said, const char *key, struct fault *fault)
{
    const struct setting *setting = found(said, key);
    if (setting == NULL)
        settings_fault(fault, said.own->line, "this market has no %s", key);
    return setting;
}

static bool take_kind(struct opening *market, struct said said, struct fault *fault)
{
    const struct setting *kind = needed(said, "Kind", fault);
    if (kind == NULL)
        return false;
    market->equities = strcmp(kind->value, "equities") == 0;
    if (!market->equities && strcmp(kind->value, "bonds") != 0)
        return settings_fault(fault, kind->line, "%s is no Kind: it is bonds or equities", settings_show(kind->value).text);
    return true;
}

static bool take_ids(struct opening *market, struct said said, struct fault *fault)
{
    const struct setting *venue = needed(said, "Venue", fault);
    if (venue == NULL || !take_text(market->venue, sizeof market->venue - 1, venue, fault))
        return false;
    const struct setting *port = needed(said, "Port", fault);
    return port != NULL && take_text(market->port, sizeof market->port - 1, port, fault);
}

/* Bonds have a code and equities a symbol; a market that says the other one itself means something else than it says. */
static bool take_code(struct opening *market, struct said said, struct fault *fault)
{
    const char *name = market->equities ? "Symbol" : "Code", *other = market->equities ? "Code" : "Symbol";
    const struct setting *wrong = settings_find(said.own, other);
    if (wrong != NULL)
        return settings_fault(fault, wrong->line, "a market of %s has a %s, and no %s", market->equities ? "equities" : "bonds", name, other);
    const struct setting *code = needed(said, name, fault);
    if (code == NULL)
        return false;
    if (!market->equities && !has_only(code->value, '0', '9'))
        return settings_fault(fault, code->line, "%s is no Code: it has 1 to 9 digits", settings_show(code->value).text);
    return take_text(market->code, sizeof market->code - 1, code, fault);
}

static bool take_first(struct opening *market, struct said said, struct fault *fault)
{
    const struct setting *first = found(said, "FirstNumber");
    market->first = first == NULL ? 1 : number_up_to(first->value, 999999999);
    if (market->first == 0)
        return settings_fault(fault, first->line, "%s is no FirstNumber: it is 1 to 999999999", settings_show(first->value).text);
    return true;
}

static bool has_mpids(const struct section *section)
{
    for (size_t i = 0; i < section->count; i++)
        if (mpid_in(section->settings[i].key) != NULL)
            return true;
    return false;
}

static bool take_mode(uint64_t *mode, const struct setting *from, struct fault *fault)
{
    for (size_t i = 0; i < MODES; i++)
        if (strcmp(from->value, modes[i].name) == 0) {
            *mode = modes[i].mode;
            return true;
        }
    return settings_fault(fault, from->line, "%s is no mode: it is cancel-newest, cancel-oldest or decrement", settings_show(from->value).text);
}

static bool take_mpid(struct opening *market, const struct setting *from, const char *digits, struct fault *fault)
{
    uint64_t mpid = number_up_to(digits, 999999);
    if (mpid == 0)
        return settings_fault(fault, from->line, "%s is no MPID: it is MPID and a number from 1 to 999999", settings_show(from->key).text);
    for (size_t i = 0; i < market->count; i++)
        if (market->mpids[i] == mpid)
            return settings_fault(fault, from->line, "MPID %u a second time in this market", (unsigned)mpid);
    if (market->count == MOST_MPIDS)
        return settings_fault(fault, from->line, "this is one MPID too many: a market has at most %d", MOST_MPIDS);
    market->mpids[market->count] = mpid;
    return take_mode(&market->modes[market->count++], from, fault);
}

static bool take_mpids(struct opening *market, struct said said, struct fault *fault)
{
    const struct section *from = said.usual == NULL || has_mpids(said.own) ? said.own : said.usual;
    for (size_t i = 0; i < from->count; i++) {
        const char *digits = mpid_in(from->settings[i].key);
        if (digits != NULL && !take_mpid(market, &from->settings[i], digits, fault))
            return false;
    }
    return market->count > 0 || settings_fault(fault, said.own->line, "this market has no MPID, as in MPID 10=cancel-newest");
}

static bool take_market(struct opening *market, struct said said, struct fault *fault)
{
    *market = (struct opening){.line = said.own->line};
    return take_kind(market, said, fault) && take_ids(market, said, fault) && take_code(market, said, fault) &&
           take_first(market, said, fault) && take_mpids(market, said, fault);
}

/* ---- a file */

static bool check_keys(const struct section *section, struct fault *fault)
{
    for (size_t i = 0; i < section->count; i++)
        if (!is_key(section->settings[i].key))
            return settings_fault(fault, section->settings[i].line, "unknown key %s; the keys are %s",
                                  settings_show(section->settings[i].key).text, KEYS_IN_WORDS);
    return true;
}

static bool check_name(const struct section *section, struct fault *fault)
{
    for (size_t i = 0; i < SECTION_NAMES; i++)
        if (is_section(section, section_names[i]))
            return true;
    return settings_fault(fault, section->line, "unknown section [%s]; there are [DEFAULT], [MARKET] and [SESSION]",
                          settings_show(section->name).text);
}

/* Finds [DEFAULT], if there is one. */
static bool take_usual(const struct section **usual, const struct settings *settings, struct fault *fault)
{
    bool has_sessions = false;
    *usual = NULL;
    for (size_t i = 0; i < settings->count; i++) {
        const struct section *section = &settings->sections[i];
        if (!check_name(section, fault))
            return false;
        has_sessions = has_sessions || is_section(section, "SESSION");
        if (!is_section(section, "DEFAULT"))
            continue;
        if (*usual != NULL)
            return settings_fault(fault, section->line, "[DEFAULT] a second time: it is in line %zu already", (*usual)->line);
        *usual = section;
    }
    return *usual == NULL || has_sessions || check_keys(*usual, fault);
}

/* Adds the market of a section to those before it. */
static bool add_market(struct openings *openings, struct said said, struct fault *fault)
{
    struct opening *market = &openings->markets[openings->count];
    if (!check_keys(said.own, fault) || !take_market(market, said, fault))
        return false;
    const struct opening *same = openings_find(openings, market->code);
    if (same != NULL)
        return settings_fault(fault, market->line, "the market of line %zu trades %s already", same->line, market->code);
    openings->count++;
    return true;
}

static bool add_markets(struct openings *openings, const struct settings *settings, struct fault *fault)
{
    struct said said;
    if (!take_usual(&said.usual, settings, fault))
        return false;
    for (size_t i = 0; i < settings->count; i++) {
        said.own = &settings->sections[i];
        if (is_section(said.own, "MARKET") && !add_market(openings, said, fault))
            return false;
    }
    return openings->count > 0 || settings_fault(fault, settings->lines, "the file ends without a section [MARKET]");
}

bool openings_of(struct openings *openings, const struct settings *settings, struct fault *fault)
{
    openings->count = 0;
    openings->markets = calloc(settings->count + 1, sizeof *openings->markets);
    if (openings->markets == NULL)
        return settings_fault(fault, 0, "%s", strerror(ENOMEM));
    if (add_markets(openings, settings, fault))
        return true;
    openings_free(openings);
    return false;
}

bool openings_read(struct openings *openings, const char *file, struct fault *fault)
{
    struct settings settings;
    if (!settings_read(&settings, file, fault))
        return false;
    bool good = openings_of(openings, &settings, fault);
    settings_free(&settings);
    return good;
}

void openings_free(struct openings *openings)
{
    free(openings->markets);
    *openings = (struct openings){NULL, 0};
}

const struct opening *openings_find(const struct openings *openings, const char *code)
{
    for (size_t i = 0; i < openings->count; i++)
        if (strcmp(openings->markets[i].code, code) == 0)
            return &openings->markets[i];
    return NULL;
}
