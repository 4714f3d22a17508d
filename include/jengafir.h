/* The C interface of Jengafir: shapes drawn as path commands and merged, paths measured, trimmed
   and repeated, and binary32 arithmetic. */
#ifndef JENGAFIR_H
#define JENGAFIR_H

#include <stddef.h>
#include <stdint.h>

#ifdef __cplusplus
extern "C" {
#endif

/* What a call that may refuse its input returns. */
enum jengafir_refusal {
    JENGAFIR_ACCEPTED = 0,          /* the answer is written */
    JENGAFIR_EMPTY = 1,             /* empty input: no vertices, or no item rows */
    JENGAFIR_TOO_MANY = 2,          /* too many vertices, rows, levels, commands or copies, or an offset over 4,096 */
    JENGAFIR_OUT_OF_RANGE = 3,      /* a number that is not finite, or over its limit */
    JENGAFIR_UNLISTED = 4,          /* a code, flag or mode that is not listed */
    JENGAFIR_UNSUPPORTED = 5,       /* a polystar */
    JENGAFIR_BROKEN_NESTING = 6,    /* the first row is nested, or a row lies deeper than the row before it allows */
    JENGAFIR_NOT_MERGEABLE = 7,     /* no row merges the rows before it */
    JENGAFIR_TOO_SHORT = 8,         /* a path too short to be cut */
    JENGAFIR_NO_SUCH_COPY = 9,      /* a copy index that is not below the number of copies */
    JENGAFIR_NOT_FINITE = 10,       /* a copy whose matrix or opacity is not finite */
    JENGAFIR_BUFFER_TOO_SMALL = 11, /* the codes or the numbers of the answer do not fit */
    JENGAFIR_OUT_OF_BOUNDS = 12     /* entries needed past the end of a list, numbers left over, or no such command */
};

/* The codes of path commands. The numbers of a command stand in this order in the list of numbers. */
enum jengafir_code {
    JENGAFIR_MOVE = 0,  /* x, y */
    JENGAFIR_LINE = 1,  /* x, y */
    JENGAFIR_CUBIC = 2, /* two control points and the end: x1, y1, x2, y2, x, y */
    JENGAFIR_CLOSE = 3, /* no numbers */
    JENGAFIR_QUAD = 4   /* the control point and the end: x1, y1, x, y */
};

/* The kinds of item rows, for the shapes with the numbers that a row has from its place on. */
enum jengafir_kind {
    JENGAFIR_SH = 1,    /* a path: its vertices, six numbers each as jengafir_draw_path reads them */
    JENGAFIR_RC = 2,    /* a rectangle: centre x, y; width, height; roundness */
    JENGAFIR_EL = 3,    /* an ellipse: centre x, y; width, height */
    JENGAFIR_SR = 4,    /* a polystar, which is not drawn yet */
    JENGAFIR_GR = 5,    /* a group: the rows after it that are deeper are in it */
    JENGAFIR_TR = 6,    /* a transform */
    JENGAFIR_FL = 7,    /* a fill */
    JENGAFIR_ST = 8,    /* a stroke */
    JENGAFIR_GF = 9,    /* a gradient fill */
    JENGAFIR_GS = 10,   /* a gradient stroke */
    JENGAFIR_TM = 11,   /* a trim */
    JENGAFIR_RP = 12,   /* a repeater */
    JENGAFIR_MM = 13,   /* a merge */
    JENGAFIR_OTHER = 14 /* any other item */
};

/* Of every function: the calling thread rounds to nearest and does not flush subnormal numbers to zero. So a program
   starts, unless it is built with -ffast-math or changes the mode by <fenv.h> or the like. A length that is handed
   over with a pointer is true: so many entries stand there. */

/* Of jengafir_draw_path, jengafir_draw_item and jengafir_merge: no pointer is null, and what is lent for writing
   overlaps nothing else that is lent. On acceptance the commands stand at the start of both buffers, and the counts
   say how many codes and numbers they are; places past the counts keep their content. On a refusal both counts are 0,
   and both buffers keep their content. How large the buffers must be is told by jengafir_tray_need and its
   neighbours, below. */

/* Draws the path of `count` vertices, 1 to 1,024, open where `closed` is 0 and closed where it is 1.
   A vertex is six numbers: x, y, the tangent that comes in, x and y, and the tangent that goes out, x and y. Tangents
   are relative to the vertex. Every number is at most 1,048,576 in absolute value.
   Reads the first 6 * count entries of `vertices`, and no entry past them.
   Refuses, by the first of these that holds: 1, 2, 4 for `closed`, 12, 3, 11. */
uint32_t jengafir_draw_path(uint32_t closed, const float *vertices, size_t vertices_len, size_t count,
                            uint8_t *codes, size_t codes_len, float *numbers, size_t numbers_len,
                            size_t *codes_written, size_t *numbers_written);

/* Draws the shape of one item row, also where the row is hidden.
   A row is six entries: kind, hidden (0 or 1), depth (not read here), mark (for a path 0 if open and 1 if closed,
   else 0), place (where the row's numbers start in `items`), and count (the number of a path's vertices, else 0).
   Every number is at most 1,048,576 in absolute value.
   Widths and heights are taken without their signs. A rectangle begins at the left of its upper side and goes round
   clockwise, by the right (y points down): five commands with sharp corners, ten with round ones. An ellipse begins at
   the top and goes round clockwise, by right, bottom and left: a move, four cubics and a close, flat where a side is 0.
   Reads the first six entries of `row`, and of `items` the numbers of this row alone.
   Refuses a row list of fewer than six entries with 12, and then by the first of these that holds: 4 for an entry
   of the row, a kind that is no shape among them, 5, 1, 2, 12, 3, 11. */
uint32_t jengafir_draw_item(const uint32_t *row, size_t row_len, const float *items, size_t items_len,
                            uint8_t *codes, size_t codes_len, float *numbers, size_t numbers_len,
                            size_t *codes_written, size_t *numbers_written);

/* Joins the sources of a merge: the commands of each, one source after the other.
   A row is six entries: kind, hidden (0 or 1), depth, mark (for a path 0 if open and 1 if closed, for a merge its mode
   from 0 to 255, else 0), place and count as for jengafir_draw_item. The first row is at depth 0. A row is at most one
   deeper than the row before it, and deeper only where that is a group, which it then is in.
   The merge is the first visible row of kind mm and mode 1 at depth 0. At depth 0, the visible rows before it are
   sources (sh, rc, el, sr), tr, and empty groups, with two sources or more; those after it are fl, st, gf, gs, tr, tm,
   rp, and mm with nothing but hidden rows, empty groups and tr between it and the visible mm before it. A group is
   empty if each row directly in it is hidden, a tr, or an empty group.
   Reads the first 6 * row_count entries of `rows`, 1 to 256 rows, and of `items` the numbers of the sources alone.
   Refuses, by the first of these that holds: 1 for no rows; 2 for more than 256; 12 for a row list that is too short;
   2 for a depth over 8; 4 for an entry of a row; 6 for the nesting; 7 if there is no such merge. Then the first faulty
   source counts, by 5, 1, 2, 12, 3 as for jengafir_draw_item. The last is 11. */
uint32_t jengafir_merge(const uint32_t *rows, size_t rows_len, size_t row_count, const float *items, size_t items_len,
                        uint8_t *codes, size_t codes_len, float *numbers, size_t numbers_len,
                        size_t *codes_written, size_t *numbers_written);

/* Of jengafir_tray_need, jengafir_item_need and jengafir_merge_need: each tells exactly how many codes and numbers the
   drawing call that is named with it writes for the same input. So buffers of just these sizes are large enough, and
   with a place less in either that call gives 11. It reads what that call reads, and refuses what that call refuses, by
   the same number, but never gives 11. No pointer is null, and the places of the counts overlap nothing else that is
   lent. On a refusal both counts are 0. */

/* What jengafir_draw_path writes. Refuses, by the first of these that holds: 1, 2, 4 for `closed`, 12, 3. */
uint32_t jengafir_tray_need(uint32_t closed, const float *vertices, size_t vertices_len, size_t count,
                            size_t *codes_needed, size_t *numbers_needed);

/* What jengafir_draw_item writes. Refuses a row list of fewer than six entries with 12, and then by the first of these
   that holds: 4, 5, 1, 2, 12, 3. */
uint32_t jengafir_item_need(const uint32_t *row, size_t row_len, const float *items, size_t items_len,
                            size_t *codes_needed, size_t *numbers_needed);

/* What jengafir_merge writes. Refuses as jengafir_merge does, but for 11. */
uint32_t jengafir_merge_need(const uint32_t *rows, size_t rows_len, size_t row_count, const float *items,
                             size_t items_len, size_t *codes_needed, size_t *numbers_needed);

/* Sizes that are always enough, for arrays that are fixed when a program is built: for a path of n vertices, open or
   closed, for a rectangle, and for an ellipse. No drawing of these writes more; a closed path of two cubics or more, a
   rectangle with round corners and every ellipse write just as much. For a merge the sizes of its sources added up are
   enough. */
#define JENGAFIR_PATH_CODES(n) ((n) + 2)
#define JENGAFIR_PATH_NUMBERS(n) (6 * (n) + 2)
#define JENGAFIR_RECTANGLE_CODES 10
#define JENGAFIR_RECTANGLE_NUMBERS 34
#define JENGAFIR_ELLIPSE_CODES 6
#define JENGAFIR_ELLIPSE_NUMBERS 26

/* Of every call that reads a command list: the list is its codes and the numbers of all its commands, in order. No
   pointer is null, and a place that is lent for writing overlaps nothing else that is lent.
   A list has at most 262,144 commands, and every number is at most 4,194,304 in absolute value; an empty list is
   legal. A list is refused with 2 if it is longer; else by its first faulty command, with 4 for its code, 12 if the
   list has not all of its numbers, or 3; and else with 12 if numbers are left over. Only jengafir_length_reaches may
   stop before a fault. What jengafir_draw_path, jengafir_draw_item and jengafir_merge write is never refused. */

/* Puts the length of a path down in `length`: 32 chords a cubic, 24 a quad, and a close back to where its contour
   started. Without a point to come from, a line or a curve adds nothing; it sets the point, and its contour has no
   start. A close without a start adds nothing and clears the point.
   On a refusal `length` keeps its content. */
uint32_t jengafir_length(const uint8_t *codes, size_t codes_len, const float *numbers, size_t numbers_len,
                         float *length);

/* Tells whether a path is at least `least` long: `reached` is 1 for yes and 0 for no, and `commands_read` says how many
   commands were read to tell. The reply is yes after the fewest commands, from the first on, whose length by themselves
   is at least `least`. What lies past them is not read: neither faults nor numbers left over are seen. The reply is no
   after all commands. A `least` of 0 is a yes after no command, whatever the list holds. Of a list that jengafir_length
   accepts, the reply is what comparing its length with `least` gives.
   Refuses over 262,144 commands with 2; then a `least` that is negative or not finite with 3, where -0 is 0; then the
   list as jengafir_length does, by a fault that is met before a yes.
   On a refusal `commands_read` is 0, and `reached` keeps its content. */
uint32_t jengafir_length_reaches(const uint8_t *codes, size_t codes_len, const float *numbers, size_t numbers_len,
                                 float least, uint32_t *reached, size_t *commands_read);

/* Tells where the numbers of command `k` stand in the list: the first place and how many there are, which for a close
   is none. The first command is 0. Refuses a sound list that has no command `k` with 12.
   On a refusal both are 0. */
uint32_t jengafir_command(const uint8_t *codes, size_t codes_len, const float *numbers, size_t numbers_len, size_t k,
                          size_t *start, size_t *count);

/* Of the two calls that trim: start and end are in per cent of the path's length, the offset is in degrees, and a
   turn is the whole length. They may be any finite numbers. No pointer is null, and places that are lent for writing
   overlap nothing else that is lent.
   On acceptance `range_count` is 0 where nothing is visible, 2 where the visible part runs over the path's end and on
   from its start, and else 1; `whole` is 1 where the one range is the whole path, and else 0; numbers stand at the
   start of the array, and places past them keep their content. On a refusal `range_count` is 0, and `whole` and the
   array keep their content. */

/* Puts the visible ranges of a trim down in `ranges`, as parts of the path's length: for each range its start and its
   end, which are from 0 to 1 with the start not beyond the end. A start may be -0. Two ranges are from a start to 1,
   and from 0 to an end.
   Refuses a number that is not finite with 3. */
uint32_t jengafir_trim_ranges(float start, float end, float offset, float ranges[4], size_t *range_count,
                              uint32_t *whole);

/* Puts down in `cuts` how much of a path's length lies before, in and after each visible range: three numbers a range.
   `mode` is 1 or 2; both are answered alike.
   Refuses, by the first of these that holds: 3 for a number of the trim, 4 for `mode`, the list as jengafir_length
   does, and 8 for a path of length at most 2^-23. */
uint32_t jengafir_trim_lengths(float start, float end, float offset, uint8_t mode, const uint8_t *codes,
                               size_t codes_len, const float *numbers, size_t numbers_len, float cuts[6],
                               size_t *range_count, uint32_t *whole);

/* Of the two calls about a repeater: its eleven numbers are copies, offset, anchor x and y, position x and y, scale x
   and y in per cent, rotation in degrees, and the opacities of the first and of the last copy. There are as many copies
   as the ceiling of `copies` says, none where it is negative. The mode may be any. No pointer is null, and places that
   are lent for writing overlap nothing else that is lent.
   Refuses a repeater of more than 4,096 copies, or with an absolute offset over 4,096, with 2; and a number that is not
   finite, or over 1,048,576 in absolute value, with 3.
   On acceptance the answer stands at the start of the buffer and the count says how many entries it has; places past it
   keep their content. On a refusal the count is 0 and the buffer keeps its content. */

/* Puts down the copies in the order in which they are drawn: 0, 1, .. in mode 1, else the other way round.
   Refuses 2, 3 as above, then an order that does not fit with 11. */
uint32_t jengafir_copy_order(const float repeater[11], uint8_t mode, uint32_t *order, size_t order_len,
                             size_t *order_count);

/* Puts down seven numbers for one copy: its matrix a, b, c, d, e, f, which sends (p, q) to
   (a p + c q + e, b p + d q + f), and its opacity.
   Each step turns around the anchor by the rotation, and the part of a step by its part of it, to the nearest sixteenth
   of a degree, a half away from zero; where y points down, more degrees turn clockwise. A step back, for a copy whose
   number and the offset sum to less than zero, turns the other way. The sine and the cosine of each sixteenth are fixed
   to the last bit.
   Refuses 2, 3 as above, then a copy that is not there with 9, numbers that are not finite with 10, and a buffer of
   fewer than seven places with 11. */
uint32_t jengafir_copy_transform(const float repeater[11], uint8_t mode, size_t copy, float *matrix, size_t matrix_len,
                                 size_t *matrix_count);

/* Each float function is defined for every float. */

/* a * b + c, rounded once: IEEE 754's fusedMultiplyAdd. */
float jengafir_mul_add(float a, float b, float c);

/* The float nearest to the square root of x*x + y*y, ties to even; an infinity wins over a NaN. */
float jengafir_hypot(float x, float y);

/* The largest whole number not above x; a zero has the sign of x. */
float jengafir_floor(float x);

/* The smallest whole number not below x; a zero has the sign of x. */
float jengafir_ceil(float x);

/* The whole number nearest to x, a half away from zero; a zero has the sign of x. */
float jengafir_round(float x);

/* x without its sign. */
float jengafir_abs(float x);

/* x modulo 360 as Rust's rem_euclid: not below 0, and 360 itself for a tiny negative x.
   A zero has the sign of x; an infinity gives a NaN. */
float jengafir_rem_euclid_360(float x);

#ifdef __cplusplus
}
#endif

#endif
