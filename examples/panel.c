/* A bag panel of a coin sorter, written to standard output as an SVG page. Each bag has a frame with a mouth, square or
   round, a ring that shows how full it is, an arrow that rises beside it, and a stack of coins, upright or fanned out.
   Of each drawing the panel first asks what it needs, and then draws it into buffers of just that size. The panel is
   drawn at size 1, and from enlarged input at size 2. The program compares the two and fails where the second is not the
   first, exactly enlarged.

       gcc -std=c99 -Iinclude examples/panel.c target/staticlib/libjengafir.a -o panel && ./panel >panel.svg

   The library's numbers are printed with nine significant digits. No two floats have the same nine, so pages with the
   same text have the same numbers, bit for bit, and every printf that rounds to the nearest prints the same text.
   Captions have fewer digits: they are for people. */
#include "jengafir.h"

#include <stdio.h>
#include <stdlib.h>
#include <string.h>

#define COUNT(list) (sizeof(list) / sizeof(list)[0])

#define FACTOR 2

/* What a bag holds at most, and how many of its coins one coin of the stack stands for. */
#define FULL 100
#define COINS_PER_COPY 10
#define MOST_COPIES (FULL / COINS_PER_COPY)

/* A multiple of 1/1024. On this grid a drawing enlarges exactly. */
#define GRID(n) ((n) / 1024.0f)

/* A tangent that makes four cubics round: 0.5522848 of a radius of 20, on the grid. */
#define RING_TANGENT GRID(11311)

/* A mouth at size 1 is 64 by 64, and a stack 64 by 54. */
#define MOUTH_HEIGHT 64
#define STACK_HEIGHT 54
#define MIDDLE 32
#define COIN_Y 46

/* An arrow stands left of the mouth, and rises by half a unit with each coin. It has a head where it is as long as one. */
#define ARROW_X -6
#define ARROW_FOOT 57
#define ARROW_RISE 0.5f
#define HEAD_LENGTH 9
#define HEAD_SIDE 3

/* The items of a bag at size 1: the frame's rectangle; its mouth, which is a rectangle, or an ellipse with no use for the
   roundness; the ring as a path from the right, clockwise; and the coin, an ellipse. */
static const float items[] = {
    MIDDLE, 32, 60, 60, 14,
    MIDDLE, 32, 52, 52, 10,
    MIDDLE + 20, 32, 0, -RING_TANGENT, 0, RING_TANGENT,
    MIDDLE, 52, RING_TANGENT, 0, -RING_TANGENT, 0,
    MIDDLE - 20, 32, 0, RING_TANGENT, 0, -RING_TANGENT,
    MIDDLE, 12, -RING_TANGENT, 0, RING_TANGENT, 0,
    MIDDLE, COIN_Y, 36, 12,
};
#define ITEMS COUNT(items)
#define OUTER_PLACE 0
#define MOUTH_PLACE 5
#define RING_PLACE 10
#define RING_VERTICES 4
#define COIN_PLACE 34

/* A frame is its rectangle and its mouth, merged. */
enum { SQUARE, ROUND, MOUTHS };
#define FRAME_ROWS 4
#define FRAME(mouth)                            \
    {                                           \
        {JENGAFIR_RC, 0, 0, 0, OUTER_PLACE, 0}, \
        {mouth, 0, 0, 0, MOUTH_PLACE, 0},       \
        {JENGAFIR_MM, 0, 0, 1, 0, 0},           \
        {JENGAFIR_FL, 0, 0, 0, 0, 0},           \
    }
static const uint32_t frame_rows[MOUTHS][FRAME_ROWS][6] = {FRAME(JENGAFIR_RC), FRAME(JENGAFIR_EL)};
static const uint32_t coin_row[6] = {JENGAFIR_EL, 0, 0, 0, COIN_PLACE, 0};

/* The form of a bag's mouth, how many coins it holds, from where its ring is shown, in degrees from the right, the
   repeater's mode, and by how many degrees each coin of the stack is turned against the one below. */
typedef struct {
    int mouth, coins;
    float offset;
    uint8_t mode;
    float fan;
} Bag;

static const Bag bags[] = {
    {SQUARE, 0, -90, 1, 0},  {ROUND, 10, -90, 1, 0},   {SQUARE, 25, -90, 1, 0},
    {ROUND, 60, -90, 1, 15}, {SQUARE, 100, -90, 1, 0}, {ROUND, 100, 0, 2, 12.5f},
};
#define BAGS COUNT(bags)

/* A command list in buffers of its own, and its length where it is measured. */
typedef struct {
    uint8_t *codes;
    float *numbers;
    size_t codes_len, numbers_len, code_count, number_count;
    float length;
} Path;

/* How much of the ring is visible, the arrow and whether it has a head, and the copies of the coin in the order in which
   they are drawn. */
typedef struct {
    float ranges[4], cuts[6];
    size_t range_count;
    uint32_t whole;
    Path arrow;
    uint32_t has_head;
    size_t commands_read;
    uint32_t order[MOST_COPIES];
    float copies[MOST_COPIES][7];
    size_t copy_count;
} Fill;

typedef struct {
    int size;
    Path frames[MOUTHS], ring, coin;
    float ring_start[2];
    Fill fills[BAGS];
} Panel;

static void fail(const char *why)
{
    fprintf(stderr, "panel: %s\n", why);
    exit(1);
}

static void must_accept(const char *call, uint32_t refusal)
{
    if (refusal != JENGAFIR_ACCEPTED) {
        fprintf(stderr, "panel: %s refuses with %u\n", call, (unsigned)refusal);
        exit(1);
    }
}

/* Buffers with so many places and no more. */
static Path buffers(size_t codes_len, size_t numbers_len)
{
    Path path = {0};
    path.codes_len = codes_len;
    path.numbers_len = numbers_len;
    path.codes = malloc(codes_len * sizeof *path.codes);
    path.numbers = malloc(numbers_len * sizeof *path.numbers);
    if (path.codes == NULL || path.numbers == NULL)
        fail("no memory for a path");
    return path;
}

static size_t bytes_of(const Path *path)
{
    return path->codes_len * sizeof *path->codes + path->numbers_len * sizeof *path->numbers;
}

/* A drawing fills buffers of just the size that it was said to need. */
static void must_fill(const Path *path)
{
    if (path->code_count != path->codes_len || path->number_count != path->numbers_len)
        fail("a drawing does not fill what it needs");
}

static void measure(Path *path)
{
    uint32_t refusal =
        jengafir_length(path->codes, path->code_count, path->numbers, path->number_count, &path->length);
    must_accept("jengafir_length", refusal);
}

static Path draw_frame(const uint32_t rows[FRAME_ROWS][6], const float *enlarged)
{
    size_t codes_needed, numbers_needed;
    uint32_t refusal = jengafir_merge_need(rows[0], 6 * FRAME_ROWS, FRAME_ROWS, enlarged, ITEMS, &codes_needed,
                                           &numbers_needed);
    must_accept("jengafir_merge_need", refusal);
    Path path = buffers(codes_needed, numbers_needed);
    refusal = jengafir_merge(rows[0], 6 * FRAME_ROWS, FRAME_ROWS, enlarged, ITEMS, path.codes, path.codes_len,
                             path.numbers, path.numbers_len, &path.code_count, &path.number_count);
    must_accept("jengafir_merge", refusal);
    must_fill(&path);
    return path;
}

static Path draw_coin(const float *enlarged)
{
    size_t codes_needed, numbers_needed;
    uint32_t refusal = jengafir_item_need(coin_row, 6, enlarged, ITEMS, &codes_needed, &numbers_needed);
    must_accept("jengafir_item_need", refusal);
    Path path = buffers(codes_needed, numbers_needed);
    refusal = jengafir_draw_item(coin_row, 6, enlarged, ITEMS, path.codes, path.codes_len, path.numbers,
                                 path.numbers_len, &path.code_count, &path.number_count);
    must_accept("jengafir_draw_item", refusal);
    must_fill(&path);
    return path;
}

/* Draws vertices, with no row about them. */
static Path draw_vertices(uint32_t closed, const float *vertices, size_t count)
{
    size_t codes_needed, numbers_needed;
    uint32_t refusal = jengafir_tray_need(closed, vertices, 6 * count, count, &codes_needed, &numbers_needed);
    must_accept("jengafir_tray_need", refusal);
    Path path = buffers(codes_needed, numbers_needed);
    refusal = jengafir_draw_path(closed, vertices, 6 * count, count, path.codes, path.codes_len, path.numbers,
                                 path.numbers_len, &path.code_count, &path.number_count);
    must_accept("jengafir_draw_path", refusal);
    must_fill(&path);
    return path;
}

/* Draws a line from the foot up. How long it is does not matter, only whether it is long enough for a head. */
static void rise(const Bag *bag, int size, Fill *fill)
{
    const float factor = (float)size;
    const float x = ARROW_X * factor, foot = ARROW_FOOT * factor, top = foot - ARROW_RISE * (float)bag->coins * factor;
    const float vertices[] = {x, foot, 0, 0, 0, 0, x, top, 0, 0, 0, 0};
    fill->arrow = draw_vertices(0, vertices, 2);
    uint32_t refusal = jengafir_length_reaches(fill->arrow.codes, fill->arrow.code_count, fill->arrow.numbers,
                                               fill->arrow.number_count, HEAD_LENGTH * factor, &fill->has_head,
                                               &fill->commands_read);
    must_accept("jengafir_length_reaches", refusal);
}

/* The point of the path's first command, which is a move. */
static void find_start(const Path *path, float point[2])
{
    size_t start, count;
    uint32_t refusal = jengafir_command(path->codes, path->code_count, path->numbers, path->number_count, 0, &start,
                                        &count);
    must_accept("jengafir_command", refusal);
    if (count != 2)
        fail("the ring does not begin with a move");
    memcpy(point, path->numbers + start, 2 * sizeof *point);
}

static void trim(const Bag *bag, const Path *ring, Fill *fill)
{
    float end = 100.0f * (float)bag->coins / FULL;
    size_t range_count;
    uint32_t whole;
    uint32_t refusal = jengafir_trim_ranges(0, end, bag->offset, fill->ranges, &range_count, &whole);
    must_accept("jengafir_trim_ranges", refusal);
    refusal = jengafir_trim_lengths(0, end, bag->offset, 1, ring->codes, ring->code_count, ring->numbers,
                                    ring->number_count, fill->cuts, &fill->range_count, &fill->whole);
    must_accept("jengafir_trim_lengths", refusal);
    if (range_count != fill->range_count || whole != fill->whole)
        fail("a trim has other ranges than cuts");
}

/* The coins stand one above the other, or fan out from the lowest on, and those below are paler. */
static void stack(const Bag *bag, int size, Fill *fill)
{
    const float factor = (float)size;
    const float repeater[11] = {
        (float)bag->coins / COINS_PER_COPY, 0,
        MIDDLE * factor, COIN_Y * factor,
        0, -4 * factor,
        100, 100,
        bag->fan,
        0.5f, 1,
    };
    uint32_t refusal = jengafir_copy_order(repeater, bag->mode, fill->order, MOST_COPIES, &fill->copy_count);
    must_accept("jengafir_copy_order", refusal);
    for (size_t i = 0; i < fill->copy_count; i++) {
        size_t count;
        refusal = jengafir_copy_transform(repeater, bag->mode, fill->order[i], fill->copies[i], 7, &count);
        must_accept("jengafir_copy_transform", refusal);
    }
}

static void draw_panel(int size, Panel *panel)
{
    float enlarged[ITEMS];
    for (size_t i = 0; i < ITEMS; i++)
        enlarged[i] = items[i] * (float)size;
    panel->size = size;
    for (size_t i = 0; i < MOUTHS; i++) {
        panel->frames[i] = draw_frame(frame_rows[i], enlarged);
        measure(&panel->frames[i]);
    }
    panel->ring = draw_vertices(1, enlarged + RING_PLACE, RING_VERTICES);
    measure(&panel->ring);
    panel->coin = draw_coin(enlarged);
    measure(&panel->coin);
    find_start(&panel->ring, panel->ring_start);
    for (size_t i = 0; i < BAGS; i++) {
        trim(&bags[i], &panel->ring, &panel->fills[i]);
        rise(&bags[i], size, &panel->fills[i]);
        stack(&bags[i], size, &panel->fills[i]);
    }
}

static size_t numbers_compared;

/* Numbers are compared by their bits, because a zero has to keep its sign. */
static void must_enlarge(const char *what, const float *small, const float *large, size_t count)
{
    for (size_t i = 0; i < count; i++) {
        float product = FACTOR * small[i];
        if (memcmp(&product, &large[i], sizeof product) != 0)
            fail(what);
    }
    numbers_compared += count;
}

static void must_stay(const char *what, const float *small, const float *large, size_t count)
{
    if (memcmp(small, large, count * sizeof *small) != 0)
        fail(what);
    numbers_compared += count;
}

static void compare_paths(const Path *small, const Path *large)
{
    if (small->codes_len != large->codes_len || small->numbers_len != large->numbers_len)
        fail("a path needs other buffers at the larger size");
    if (small->code_count != large->code_count || small->number_count != large->number_count ||
        memcmp(small->codes, large->codes, small->code_count) != 0)
        fail("a path has other commands at the larger size");
    must_enlarge("a coordinate is not enlarged exactly", small->numbers, large->numbers, small->number_count);
}

static void compare_measured(const Path *small, const Path *large)
{
    compare_paths(small, large);
    must_enlarge("a length is not enlarged exactly", &small->length, &large->length, 1);
}

static void compare_trims(const Fill *small, const Fill *large)
{
    if (small->range_count != large->range_count || small->whole != large->whole)
        fail("a trim has other ranges at the larger size");
    must_stay("a trim has other ranges at the larger size", small->ranges, large->ranges, 2 * small->range_count);
    must_enlarge("a cut is not enlarged exactly", small->cuts, large->cuts, 3 * small->range_count);
}

static void compare_arrows(const Fill *small, const Fill *large)
{
    compare_paths(&small->arrow, &large->arrow);
    if (small->has_head != large->has_head || small->commands_read != large->commands_read)
        fail("an arrow is long enough for a head at one size alone, or after other commands");
}

/* That a shift is enlarged exactly is promised of copies that are not turned. */
static void compare_stacks(const Bag *bag, const Fill *small, const Fill *large)
{
    if (small->copy_count != large->copy_count ||
        memcmp(small->order, large->order, small->copy_count * sizeof *small->order) != 0)
        fail("a stack has another order at the larger size");
    for (size_t i = 0; i < small->copy_count; i++) {
        const float *one = small->copies[i], *two = large->copies[i];
        must_stay("a copy has another shape at the larger size", one, two, 4);
        if (bag->fan == 0)
            must_enlarge("the shift of a copy is not enlarged exactly", one + 4, two + 4, 2);
        must_stay("a copy has another opacity at the larger size", one + 6, two + 6, 1);
    }
}

static void compare(const Panel *small, const Panel *large)
{
    for (size_t i = 0; i < MOUTHS; i++)
        compare_measured(&small->frames[i], &large->frames[i]);
    compare_measured(&small->ring, &large->ring);
    compare_measured(&small->coin, &large->coin);
    must_enlarge("the start of the ring is not enlarged exactly", small->ring_start, large->ring_start, 2);
    for (size_t i = 0; i < BAGS; i++) {
        compare_trims(&small->fills[i], &large->fills[i]);
        compare_arrows(&small->fills[i], &large->fills[i]);
        compare_stacks(&bags[i], &small->fills[i], &large->fills[i]);
    }
}

/* The page: a title, a panel of each size and a line at the foot, with a column a bag. */
#define MARGIN 28
#define COLUMN 150
#define LINE 15
#define TITLE_HEIGHT 111
#define HEADING_HEIGHT 30
#define CAPTION_HEIGHT 56
#define FOOT_HEIGHT 63
#define PANEL_HEIGHT(size) (HEADING_HEIGHT + (MOUTH_HEIGHT + STACK_HEIGHT) * (size) + 2 * CAPTION_HEIGHT)
#define PAGE_WIDTH (COLUMN * (int)BAGS + 2 * MARGIN)
#define PAGE_HEIGHT (TITLE_HEIGHT + PANEL_HEIGHT(1) + PANEL_HEIGHT(FACTOR) + FOOT_HEIGHT)

#define GROUND "#fdfcf9"
#define INK "#3d3a33"
#define PALE_INK "#736d60"

/* Of a ring's first range, and of its second. */
static const char *const colours[] = {"#a8562a", "#2f7a78"};

static void write_numbers(const float *numbers, size_t count)
{
    for (size_t i = 0; i < count; i++)
        printf("%s%.9g", i == 0 ? "" : " ", numbers[i]);
}

/* Begins a path element, which is left open for further attributes. */
static void begin_path(const Path *path)
{
    static const char letters[] = {'M', 'L', 'C', 'Z', 'Q'};
    static const size_t counts[] = {2, 2, 6, 0, 4};
    const float *numbers = path->numbers;
    printf("<path d=\"");
    for (size_t i = 0; i < path->code_count; i++) {
        uint8_t code = path->codes[i];
        printf("%s%c", i == 0 ? "" : " ", letters[code]);
        write_numbers(numbers, counts[code]);
        numbers += counts[code];
    }
    printf("\"");
}

static void write_frame(const Path *frame)
{
    begin_path(frame);
    printf(" fill=\"#ddd6c6\" fill-rule=\"evenodd\" stroke=\"#6f6858\"/>\n");
}

/* One range, as a stroke of the ring. Dashes and gaps take turns, so an empty dash stands before the part that is
   skipped. The path is said to be as long as the library finds it, so that it is cut in the same proportions. */
static void write_range(const Panel *panel, const Fill *fill, size_t i)
{
    begin_path(&panel->ring);
    printf(" fill=\"none\" stroke=\"%s\" stroke-width=\"%d\" pathLength=\"%.9g\" stroke-dasharray=\"0 ", colours[i],
           5 * panel->size, panel->ring.length);
    write_numbers(fill->cuts + 3 * i, 3);
    printf("\"/>\n");
}

/* The path itself as a thin line, what is visible of it, a dot where it starts, and the number of coins. */
static void write_ring(const Panel *panel, const Fill *fill, int coins)
{
    begin_path(&panel->ring);
    printf(" fill=\"none\" stroke=\"#cfc8b8\"/>\n");
    for (size_t i = 0; i < fill->range_count; i++)
        write_range(panel, fill, i);
    printf("<circle cx=\"%.9g\" cy=\"%.9g\" r=\"%d\" fill=\"" GROUND "\" stroke=\"" INK "\"/>\n",
           panel->ring_start[0], panel->ring_start[1], 2 * panel->size);
    printf("<text x=\"%d\" y=\"%d\" text-anchor=\"middle\" font-size=\"%d\" fill=\"" INK "\">%d</text>\n",
           MIDDLE * panel->size, (MOUTH_HEIGHT / 2 + 4) * panel->size, 11 * panel->size, coins);
}

/* The line, and if it has one its head, which ends where the line does. */
static void write_arrow(const Fill *fill, int size)
{
    const float *end = fill->arrow.numbers + fill->arrow.number_count - 2;
    begin_path(&fill->arrow);
    printf(" fill=\"none\" stroke=\"" INK "\" stroke-width=\"%d\"/>\n", size);
    if (fill->has_head)
        printf("<path d=\"M%.9g %.9g l%d %d h%d Z\" fill=\"" INK "\"/>\n", end[0], end[1], HEAD_SIDE * size,
               HEAD_LENGTH * size, -2 * HEAD_SIDE * size);
}

static void write_stack(const Path *coin, const Fill *fill)
{
    for (size_t i = 0; i < fill->copy_count; i++) {
        begin_path(coin);
        printf(" fill=\"#f4e3b8\" stroke=\"#8a6a2c\" opacity=\"%.9g\" transform=\"matrix(", fill->copies[i][6]);
        write_numbers(fill->copies[i], 6);
        printf(")\"/>\n");
    }
}

/* Begins a line of text around x. */
static void begin_caption(int x, int y, const char *colour)
{
    printf("<text x=\"%d\" y=\"%d\" text-anchor=\"middle\" fill=\"%s\">", x, y, colour);
}

/* How full the bag is, and if it is full, from where its ring has filled; below, the arcs that are drawn. */
static void write_ring_caption(const Bag *bag, const Fill *fill, int x, int y)
{
    begin_caption(x, y, INK);
    if (bag->coins == 0)
        printf("empty</text>\n");
    else if (bag->coins == FULL)
        printf("full, from the %s</text>\n", bag->offset < 0 ? "top" : "right");
    else
        printf("%d of %d coins</text>\n", bag->coins, FULL);
    if (fill->range_count == 0) {
        begin_caption(x, y + LINE, PALE_INK);
        printf("no arc</text>\n");
    }
    for (size_t i = 0; i < fill->range_count; i++) {
        begin_caption(x, y + LINE * (int)(i + 1), colours[i]);
        printf("%s %.2f long</text>\n", fill->whole ? "the whole ring," : "an arc", fill->cuts[3 * i + 1]);
    }
}

/* How many coins the stack shows, and which of them is drawn first. */
static void write_stack_caption(const Bag *bag, const Fill *fill, int x, int y)
{
    begin_caption(x, y, INK);
    if (fill->copy_count == 0) {
        printf("no coins</text>\n");
        return;
    }
    printf("a %s of %zu</text>\n", bag->fan == 0 ? "stack" : "fan", fill->copy_count);
    if (fill->copy_count == 1)
        return;
    begin_caption(x, y + LINE, PALE_INK);
    printf("%s drawn first</text>\n", fill->order[0] == 0 ? "lowest" : "highest");
}

static void write_bag(const Panel *panel, size_t i, int top)
{
    const Fill *fill = &panel->fills[i];
    int middle = MARGIN + COLUMN * (int)i + COLUMN / 2;
    int left = middle - MIDDLE * panel->size;
    int mouth_end = top + MOUTH_HEIGHT * panel->size;
    int stack_top = mouth_end + CAPTION_HEIGHT;
    printf("<g transform=\"translate(%d %d)\">\n", left, top);
    write_frame(&panel->frames[bags[i].mouth]);
    write_ring(panel, fill, bags[i].coins);
    write_arrow(fill, panel->size);
    printf("</g>\n");
    write_ring_caption(&bags[i], fill, middle, mouth_end + LINE);
    printf("<g transform=\"translate(%d %d)\">\n", left, stack_top);
    write_stack(&panel->coin, fill);
    printf("</g>\n");
    write_stack_caption(&bags[i], fill, middle, stack_top + STACK_HEIGHT * panel->size + LINE);
}

static void write_panel(const Panel *panel, int top)
{
    printf("<text x=\"%d\" y=\"%d\" font-weight=\"bold\" fill=\"" INK "\">Size %d: a frame with a square mouth measures "
           "%.9g, one with a round mouth %.9g, a ring %.9g, a coin %.9g</text>\n",
           MARGIN, top + LINE, panel->size, panel->frames[SQUARE].length, panel->frames[ROUND].length,
           panel->ring.length, panel->coin.length);
    for (size_t i = 0; i < BAGS; i++)
        write_bag(panel, i, top + HEADING_HEIGHT);
}

static void write_title(void)
{
    static const char *const lines[] = {
        "A frame is a round rectangle and the bag's mouth, merged; the mouth is a rectangle or an ellipse.",
        "A ring is one path, which starts at the dot, trimmed to the bag's count: one arc, or two where it runs past "
        "its start, and how long they are.",
        "An arrow rises with the coins, and has a head as soon as it is long enough for one.",
        "A stack is one coin, an ellipse, repeated: once for every ten coins in the bag, and once for those left over. In "
        "a fan each is turned against the one below.",
    };
    printf("<text x=\"%d\" y=\"%d\" font-size=\"18\" font-weight=\"bold\" fill=\"" INK "\">The bag panel of a coin "
           "sorter</text>\n",
           MARGIN, MARGIN + 10);
    for (size_t i = 0; i < COUNT(lines); i++)
        printf("<text x=\"%d\" y=\"%d\" fill=\"" PALE_INK "\">%s</text>\n", MARGIN, MARGIN + 30 + LINE * (int)i,
               lines[i]);
}

static void write_foot(const Panel *panel)
{
    int y = PAGE_HEIGHT - FOOT_HEIGHT + LINE;
    printf("<text x=\"%d\" y=\"%d\" fill=\"" INK "\">Size %d compared with size 1, %zu numbers: the commands, ranges, "
           "heads, orders, shapes of copies and opacities are the same;</text>\n",
           MARGIN, y, FACTOR, numbers_compared);
    printf("<text x=\"%d\" y=\"%d\" fill=\"" INK "\">every coordinate, length and cut, and every shift in an upright "
           "stack, is exactly %d times as large.</text>\n",
           MARGIN, y + LINE, FACTOR);
    printf("<text x=\"%d\" y=\"%d\" fill=\"" INK "\">At either size the panel sets aside just what the lines fill: %zu "
           "bytes for a frame with a square mouth, %zu for one with a round mouth, %zu for a ring, %zu for a "
           "coin.</text>\n",
           MARGIN, y + 2 * LINE, bytes_of(&panel->frames[SQUARE]), bytes_of(&panel->frames[ROUND]),
           bytes_of(&panel->ring), bytes_of(&panel->coin));
}

static void write_page(const Panel *small, const Panel *large)
{
    printf("<svg xmlns=\"http://www.w3.org/2000/svg\" width=\"%d\" height=\"%d\" viewBox=\"0 0 %d %d\" "
           "font-family=\"Helvetica, Arial, sans-serif\" font-size=\"11\">\n",
           PAGE_WIDTH, PAGE_HEIGHT, PAGE_WIDTH, PAGE_HEIGHT);
    printf("<title>The bag panel of a coin sorter, at size 1 and at size %d</title>\n", FACTOR);
    printf("<rect width=\"%d\" height=\"%d\" fill=\"" GROUND "\"/>\n", PAGE_WIDTH, PAGE_HEIGHT);
    write_title();
    write_panel(small, TITLE_HEIGHT);
    write_panel(large, TITLE_HEIGHT + PANEL_HEIGHT(1));
    write_foot(small);
    printf("</svg>\n");
}

static void release_path(Path *path)
{
    free(path->codes);
    free(path->numbers);
}

static void release(Panel *panel)
{
    for (size_t i = 0; i < MOUTHS; i++)
        release_path(&panel->frames[i]);
    release_path(&panel->ring);
    release_path(&panel->coin);
    for (size_t i = 0; i < BAGS; i++)
        release_path(&panel->fills[i].arrow);
}

int main(void)
{
    static Panel small, large;
    draw_panel(1, &small);
    draw_panel(FACTOR, &large);
    compare(&small, &large);
    write_page(&small, &large);
    release(&small);
    release(&large);
    if (fflush(stdout) != 0 || ferror(stdout))
        fail("the page cannot be written");
    return 0;
}
