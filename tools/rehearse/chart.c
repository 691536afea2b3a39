/* An SVG picture of the book. Lengths are in the ratio of the totals, in pixels: browsers cut numbers off far below the largest total
 * (Chromium at 2^25), even where a scale makes them small again. There is no background, and every colour can be read on white and on
 * black. Layer 5. */
#include "chart.h"

#include <inttypes.h>

#include "kamurjesh.h"
#include "kind.h"
#include "market.h"

#define TEXT_COLOUR "#757575"
#define BUY_COLOUR "#1f78c8"
#define SELL_COLOUR "#bd5a00"

/* Sizes in pixels: a row, the bar in it, its letters and the line on which they stand; the columns, and the gap beside a bar. */
enum { ROW = 18, BAR = 12, LETTERS = 12, BASE = 13, QUOTES = 100, LONGEST = 480, FIGURES = 220, GAP = 6 };

/* A side of the book and where it is drawn. */
struct side {
    struct level levels[MOST_LEVELS];
    size_t count;
    const char *name, *colour;
};

/* The rows from the top: a caption, the buys from the worst to the best, the sells from the best to the worst, a caption. */
static struct side buys = {.name = "buys", .colour = BUY_COLOUR};
static struct side sells = {.name = "sells", .colour = SELL_COLOUR};

static size_t row_of_buy(size_t k)
{
    return buys.count - k;
}

static size_t row_of_sell(size_t k)
{
    return 1 + buys.count + k;
}

static size_t rows(void)
{
    return 2 + buys.count + sells.count;
}

static uint64_t largest_total(void)
{
    uint64_t largest = 1;
    for (size_t k = 0; k < buys.count; k++)
        largest = buys.levels[k].total > largest ? buys.levels[k].total : largest;
    for (size_t k = 0; k < sells.count; k++)
        largest = sells.levels[k].total > largest ? sells.levels[k].total : largest;
    return largest;
}

/* A text at the height of a row. */
static void begin_text(FILE *out, double x, size_t row, const char *more)
{
    fprintf(out, "<text x=\"%.2f\" y=\"%zu\"%s>", x, row * ROW + BASE, more);
}

static void write_bars(FILE *out, const struct side *side, size_t row_of(size_t k), double scale)
{
    fprintf(out, "<g fill=\"%s\">\n", side->colour);
    for (size_t k = 0; k < side->count; k++)
        fprintf(out, "<rect x=\"%d\" y=\"%zu\" width=\"%.15g\" height=\"%d\"/>\n", QUOTES, row_of(k) * ROW + (ROW - BAR) / 2,
                scale * (double)side->levels[k].total, BAR);
    fputs("</g>\n", out);
}

/* The quote before each bar, and behind it the total and the number of orders. */
static void write_figures(FILE *out, const struct side *side, size_t row_of(size_t k), double scale)
{
    for (size_t k = 0; k < side->count; k++) {
        const struct level *level = &side->levels[k];
        begin_text(out, QUOTES - GAP, row_of(k), " text-anchor=\"end\"");
        print_quote(out, level->quote);
        fputs("</text>", out);
        begin_text(out, QUOTES + GAP + scale * (double)level->total, row_of(k), "");
        fprintf(out, "%" PRIu64 " in %" PRIu64 " order%s</text>\n", level->total, level->orders, level->orders == 1 ? "" : "s");
    }
}

static void write_caption(FILE *out, const struct side *side, size_t row)
{
    begin_text(out, QUOTES, row, "");
    fprintf(out, "%s%s</text>\n", side->count == 0 ? "no " : "", side->name);
}

static void write_picture(FILE *out)
{
    double scale = LONGEST / (double)largest_total();
    int width = QUOTES + LONGEST + FIGURES;
    size_t height = rows() * ROW, middle = row_of_sell(0) * ROW;
    fprintf(out, "<svg xmlns=\"http://www.w3.org/2000/svg\" width=\"%d\" height=\"%zu\" viewBox=\"0 0 %d %zu\"\n", width, height,
            width, height);
    fprintf(out, "  font-family=\"monospace\" font-size=\"%d\" fill=\"%s\">\n", LETTERS, TEXT_COLOUR);
    fprintf(out, "<title>The book that is left, by %s: buys above, sells below, the best in the middle</title>\n", kind->quote_name);
    write_bars(out, &buys, row_of_buy, scale);
    write_bars(out, &sells, row_of_sell, scale);
    fprintf(out, "<path d=\"M0 %zuH%d\" stroke=\"%s\"/>\n", middle, width, TEXT_COLOUR);
    write_caption(out, &buys, 0);
    write_figures(out, &buys, row_of_buy, scale);
    write_figures(out, &sells, row_of_sell, scale);
    write_caption(out, &sells, rows() - 1);
    fputs("</svg>\n", out);
}

bool write_chart(const char *file)
{
    FILE *out = fopen(file, "w");
    if (out == NULL)
        return false;
    buys.count = take_levels(KAMURJESH_BUY, buys.levels);
    sells.count = take_levels(KAMURJESH_SELL, sells.levels);
    write_picture(out);
    bool good = !ferror(out);
    return fclose(out) == 0 && good;
}
