/* Calls each function of the library from C, on document 01's examples and on a small shelf, and says whether they give
 * what the papers say. */
#include "leveretplate.h"

#include <stdio.h>
#include <string.h>

static int failures;

static void expect(const char *what, int holds)
{
    printf("%s: %s\n", what, holds ? "as expected" : "WRONG");
    failures += !holds;
}

static uint8_t sheet[LEVERETPLATE_SHEET];

static void check_sheet(void)
{
    const uint8_t slip[] = {4, 2, 2, 2, 1, 0, 1, 0, 2, 2, 2, 4};
    const char expected[]
        = "places 5\nlabels read 4\nbound 68\nend facet\nblock 1\nvertices 1\n0 1 1 0\ncentre 0 10000 10000 0\n";
    size_t length = leveretplate_sheet(slip, sizeof slip, sheet);
    expect("the example's sheet", length == strlen(expected) && memcmp(sheet, expected, length) == 0);
    length = leveretplate_sheet(slip, sizeof slip - 1, sheet);
    expect("the example cut short", length == 11 && memcmp(sheet, "refused 14\n", 11) == 0);
}

static void check_run(void)
{
    const uint8_t sizes[] = {2, 2}, table[] = {3, 1, 2, 4};
    const uint16_t divisions[] = {1, 1}, start[] = {1, 0, 1, 0};
    const uint16_t vertices[] = {1, 0, 1, 0, 1, 0, 0, 1, 0, 1, 0, 1, 77};
    uint16_t answer[13];
    uint64_t facts[LEVERETPLATE_FACTS] = {5, 6, 7, 8, 9};
    uint8_t number;
    for (size_t at = 0; at < 13; at++)
        answer[at] = 77;
    number = leveretplate_run(sizes, 2, divisions, 2, start, 4, table, 4, answer, 11, 68, facts);
    expect("an answer buffer one short", number == 8 && facts[0] == 5 && answer[0] == 77);
    number = leveretplate_run(sizes, 2, divisions, 2, start, 4, table, 4, answer, 13, 2, facts);
    expect("a budget of 2",
        number == 9 && facts[0] == 2 && facts[1] == 6 && facts[2] == 7 && facts[3] == 8 && facts[4] == 9
            && answer[0] == 77);
    number = leveretplate_run(sizes, 2, divisions, 2, start, 4, table, 4, answer, 13, 68, facts);
    expect("the end", number == 0 && facts[0] == 3 && facts[1] == 3 && facts[2] == 0 && facts[3] == 2 && facts[4] == 3);
    expect("its vertices, and the number behind them", memcmp(answer, vertices, sizeof vertices) == 0);
}

static void check_nearest(void)
{
    const uint8_t sizes[] = {2}, table[] = {1, 1, 1, 1, 1};
    const uint16_t divisions[] = {4}, start[] = {2, 2}, w[] = {0, 4}, off[] = {0, 3};
    const uint16_t within[] = {2, 3, 77, 77, 77, 77};
    uint16_t answer[4] = {77, 77, 77, 77}, list[6] = {77, 77, 77, 77, 77, 77};
    uint64_t facts[LEVERETPLATE_FACTS] = {5, 6, 7, 8, 9}, near[LEVERETPLATE_NEAR] = {5, 6};
    uint8_t number;
    number = leveretplate_nearest(
        sizes, 1, divisions, 1, start, 2, table, 5, answer, 4, 9, off, 2, 6, list, 6, facts, near);
    expect("a point off the grid", number == 5 && near[0] == 5 && list[0] == 77);
    number = leveretplate_nearest(
        sizes, 1, divisions, 1, start, 2, table, 5, answer, 4, 9, w, 2, 6, list, 4, facts, near);
    expect("a list one short", number == 8 && near[0] == 5 && list[0] == 77);
    number = leveretplate_nearest(
        sizes, 1, divisions, 1, start, 2, table, 5, answer, 4, 2, w, 2, 6, list, 6, facts, near);
    expect("a budget of 2, and no vertex",
        number == 9 && facts[0] == 2 && near[0] == 5 && list[0] == 77 && answer[0] == 77);
    number = leveretplate_nearest(
        sizes, 1, divisions, 1, start, 2, table, 5, answer, 4, 9, w, 2, 6, list, 6, facts, near);
    expect("the nearest vertex, and how many are listed", number == 0 && facts[0] == 3 && near[0] == 2 && near[1] == 2);
    expect("their positions, and the numbers behind them", memcmp(list, within, sizeof within) == 0);
    expect("the vertex of the end", answer[0] == 4 && answer[1] == 0 && answer[2] == 77);
}

static void check_trail(void)
{
    /* Document 01's sheet, whose path has five places. */
    const uint8_t sizes[] = {2, 2}, table[] = {2, 2, 2, 4};
    const uint16_t divisions[] = {1, 1}, start[] = {1, 0, 1, 0};
    const uint8_t records[] = {
        1, 3, 0, 101, 2, 0, 4, 4, 5, 101, 0, 0, 2, 2, 5, 67, 1, 0, 2, 0, 1, 90, 0, 0, 4, 4, 6, 77};
    const uint16_t expected[] = {1, 0, 1, 0, 0, 1, 1, 0};
    uint8_t trail[28], number;
    uint16_t answer[12], points[LEVERETPLATE_POINTS];
    uint64_t facts[LEVERETPLATE_FACTS] = {5, 6, 7, 8, 9}, bytes = 77, place[LEVERETPLATE_PLACE] = {5, 6, 7, 8};
    memset(trail, 77, sizeof trail);
    memset(answer, 77, sizeof answer);
    memset(points, 77, sizeof points);
    number = leveretplate_run_with_trail(
        sizes, 2, divisions, 2, start, 4, table, 4, answer, 12, 68, trail, 26, facts, &bytes);
    expect("a trail buffer one short",
        number == 17 && facts[0] == 5 && bytes == 77 && trail[0] == 77 && answer[0] == 77 * 257);
    number = leveretplate_run_with_trail(
        sizes, 2, divisions, 2, start, 4, table, 4, answer, 12, 4, trail, 28, facts, &bytes);
    expect("a budget of 4, and no trail",
        number == 9 && facts[0] == 4 && bytes == 77 && trail[0] == 77 && answer[0] == 77 * 257);
    number = leveretplate_run_with_trail(
        sizes, 2, divisions, 2, start, 4, table, 4, answer, 12, 68, trail, 28, facts, &bytes);
    expect("the end with its trail",
        number == 0 && facts[0] == 5 && facts[1] == 4 && facts[2] == 1 && bytes == 27 && answer[1] == 1
            && answer[4] == 77 * 257);
    expect("the records, and the byte behind them", memcmp(trail, records, sizeof records) == 0);
    number = leveretplate_read_trail(sizes, 2, divisions, 2, start, 4, trail, 27, 6, points, place);
    expect("a record beyond the last", number == 17 && place[0] == 5 && points[0] == 77 * 257);
    number = leveretplate_read_trail(sizes, 2, divisions, 2, start, 4, trail, 27, 5, points, place);
    expect("the last record's place", number == 0 && place[0] == 2 && place[1] == 2 && place[2] == 8 && place[3] == 4);
    expect("its points, and the old numbers behind them",
        memcmp(points, expected, sizeof expected) == 0 && points[8] == 77 * 257 && points[255] == 77 * 257);
}

static void check_label(void)
{
    const uint8_t sizes[] = {2, 2, 2}, expected[] = {3, 6, 1, 1, 5, 2, 5, 4};
    const uint16_t divisions[] = {1, 1, 1};
    const uint16_t losses[] = {1, 2, 8, 5, 8, 8, 2, 2, 4, 2, 2, 1, 2, 6, 1, 3, 4, 1, 4, 2, 8, 8, 2, 1};
    uint8_t table[8] = {0};
    uint64_t count = 77;
    expect("a loss too few",
        leveretplate_label(sizes, 3, divisions, 3, losses, 23, table, 8, &count) == 10 && count == 77 && table[0] == 0);
    expect("game 1's labels",
        leveretplate_label(sizes, 3, divisions, 3, losses, 24, table, 8, &count) == 0 && count == 8
            && memcmp(table, expected, 8) == 0);
}

static void check_boundary(void)
{
    const uint8_t sizes[] = {2}, old[] = {1, 1, 0, 1, 1}, expected[] = {1, 1, 0, 1, 2};
    const uint16_t divisions[] = {4}, start[] = {2, 2}, one[] = {3, 1};
    uint8_t table[6] = {77, 77, 77, 77, 77, 77};
    uint16_t answer[4] = {0};
    uint64_t count = 77, facts[LEVERETPLATE_FACTS] = {0};
    expect("a label buffer too long",
        leveretplate_boundary(sizes, 1, divisions, 1, old, 5, table, 6, &count) == 12 && count == 77 && table[0] == 77);
    expect(
        "a boundary table", leveretplate_boundary(sizes, 1, divisions, 1, old, 5, table, 5, &count) == 0 && count == 5);
    expect("its labels, and the byte behind them", memcmp(table, expected, 5) == 0 && table[5] == 77);
    expect("a run that needs its gap",
        leveretplate_run(sizes, 1, divisions, 1, start, 2, table, 5, answer, 4, 20, facts) == 16 && facts[1] == 2);
    expect("a facet end on the old table",
        leveretplate_run(sizes, 1, divisions, 1, one, 2, old, 5, answer, 4, 20, facts) == 0 && facts[2] == 1);
    expect("a place end on the new one",
        leveretplate_run(sizes, 1, divisions, 1, one, 2, table, 5, answer, 4, 20, facts) == 0 && facts[2] == 0);
}

static void check_shelf(void)
{
    uint16_t list[] = {0, 0, 1, 2, 9, 9};
    const uint16_t after[] = {0, 0, 1, 2, 4, 9};
    size_t count = 77, last = 77;
    expect("a replaced sheet named", leveretplate_file(list, 6, 4, 1, &count) == 23 && count == 77 && list[4] == 9);
    expect("a list with no place left", leveretplate_file(list, 4, 4, 4, &count) == 22 && count == 77);
    expect("a sheet filed", leveretplate_file(list, 6, 4, 4, &count) == 0 && count == 5);
    expect("its entry, and those around it", memcmp(list, after, sizeof after) == 0);
    expect("the current sheet", leveretplate_current(list, 6, 5, 2, &last) == 0 && last == 5);
    last = 77;
    expect("a sheet beyond 16 bits", leveretplate_current(list, 6, 5, 65537, &last) == 23 && last == 77);
    expect("an entry that names a later sheet", leveretplate_current(list, 6, 6, 1, &last) == 21 && last == 77);
}

static void check_check(void)
{
    const uint8_t sizes[] = {2, 2}, table[] = {3, 1, 2, 4};
    const uint16_t divisions[] = {1, 1};
    const uint16_t end[] = {0, 1, 0, 1, 1, 0, 1, 0, 1, 0, 0, 1}, twice[] = {1, 0, 1, 0, 1, 0, 1, 0};
    expect("the end in another order", leveretplate_check(sizes, 2, divisions, 2, table, 4, end, 12) == 256 * 2);
    expect("a point that stands twice", leveretplate_check(sizes, 2, divisions, 2, table, 4, twice, 8) == 0);
    expect("part of a point", leveretplate_check(sizes, 2, divisions, 2, table, 4, end, 11) == 19);
}

static void check_refine(void)
{
    /* Document 01's game 1, whose grid of 8 points becomes one of 27. */
    const uint8_t sizes[] = {2, 2, 2};
    const uint16_t divisions[] = {1, 1, 1}, large[] = {40000, 1, 1}, start[] = {1, 0, 1, 0, 1, 0};
    const uint16_t losses[] = {1, 2, 8, 5, 8, 8, 2, 2, 4, 2, 2, 1, 2, 6, 1, 3, 4, 1, 4, 2, 8, 8, 2, 1};
    const uint16_t second[] = {1, 1, 1, 1, 2, 0, 1, 1, 0, 2, 2, 0, 0, 2, 0, 2, 2, 0, 0, 2, 0, 2, 1, 1, 77};
    const uint64_t expected[] = {4, 4, 0, 2, 4, 7, 7, 0, 2, 4, 5};
    uint8_t table[27] = {0};
    uint16_t answer[49];
    uint64_t facts[LEVERETPLATE_LEVELS * LEVERETPLATE_FACTS] = {5, 5, 5, 5, 5, 5, 5, 5, 5, 5, 5};
    uint8_t number;
    for (size_t at = 0; at < 49; at++)
        answer[at] = 77;
    number = leveretplate_refine(sizes, 3, large, 3, start, 6, losses, 24, 2, 2, table, 27, answer, 49, facts);
    expect("40,000 times 2", number == 4 && facts[0] == 5 && answer[0] == 77 && table[0] == 0);
    number = leveretplate_refine(sizes, 3, divisions, 3, start, 6, losses, 24, 2, 2, table, 8, answer, 49, facts);
    expect("a label buffer for the first level", number == 12 && facts[0] == 5 && answer[0] == 77 && table[0] == 0);
    number = leveretplate_refine(sizes, 3, divisions, 3, start, 6, losses, 24, 258, 2, table, 27, answer, 49, facts);
    expect("a factor beyond a byte", number == 18 && facts[0] == 5 && answer[0] == 77 && table[0] == 0);
    number = leveretplate_refine(sizes, 3, divisions, 3, start, 6, losses, 24, 2, 2, table, 27, answer, 49, facts);
    expect("both levels", number == 0 && memcmp(facts, expected, sizeof expected) == 0);
    expect("the second level's vertices, and the number behind them", memcmp(answer + 24, second, sizeof second) == 0);
}

static struct leveretplate_answered told;

static void check_walk(void)
{
    const uint8_t sizes[] = {2, 2}, table[] = {2, 2, 2, 4}, rules[] = {5, 5, 1, 6};
    const uint16_t divisions[] = {1, 1}, start[] = {1, 0, 1, 0}, off[] = {1, 0, 1, 1},
                   points[] = {1, 0, 1, 0, 0, 1, 1, 0, 0};
    struct leveretplate_walk end;
    int rightly = 1;
    leveretplate_walk_at_start(&told, sizes, 2, divisions, 2, off, 4, table, 4);
    expect("a walk at a start off the grid", told.number == 5 && told.walk.places == 0);
    leveretplate_walk_at_start(&told, sizes, 2, divisions, 2, start, 4, table, 4);
    expect("the walk at {v}",
        told.number == 0 && told.walk.places == 1 && told.walk.present.count == 1 && told.walk.before.count == 0
            && told.walk.labels_read == 1 && told.walk.carried[0] == 4);
    leveretplate_preview(&told, table, 4);
    expect("its first move shown",
        told.rule == 5 && told.map == 37 && told.fields[0] == 2 && told.fields[2] == 4 && told.fields[5] == 4
            && told.walk.places == 1);
    for (size_t at = 0; at < 4; at++) {
        leveretplate_move_on(&told, table, 4);
        rightly &= told.number == 0 && told.rule == rules[at] && told.walk.places == at + 2;
    }
    expect("the path by calls", rightly);
    expect("its labels read, and the labels carried",
        told.walk.labels_read == 4 && memcmp(told.walk.carried, "\4\2\0", 3) == 0);
    end = told.walk;
    leveretplate_move_on(&told, table, 4);
    expect("its end",
        told.number == 0 && told.kind == 1 && told.block == 1 && told.vertices == 1 && told.rule == 0
            && told.simplex[1] == 1);
    expect("the walk at the end", memcmp(&told.walk, &end, sizeof end) == 0);
    leveretplate_walk_points(&told, table, 4);
    expect("its points", told.vertices == 2 && memcmp(told.simplex, points, sizeof points) == 0);
    told.walk.present = end.before;
    told.walk.before = end.present;
    leveretplate_move_on(&told, table, 4);
    expect("labels of another place", told.number == 20 && told.walk.places == 5);
    memcpy(told.walk.carried, "\4\2\2", 3);
    leveretplate_move_on(&told, table, 4);
    expect("the walk back", told.rule == 1 && told.walk.places == 6);
    told.walk.labels_read = 7;
    leveretplate_move_on(&told, table, 4);
    expect("more labels read than places", told.number == 20 && told.walk.labels_read == 7);
    told.walk.labels_read = 1;
    told.walk.places = 69;
    leveretplate_move_on(&told, table, 4);
    expect("places above the bound", told.number == 20 && told.walk.places == 69);
}

int main(void)
{
    check_sheet();
    check_run();
    check_nearest();
    check_trail();
    check_label();
    check_boundary();
    check_shelf();
    check_check();
    check_refine();
    check_walk();
    printf("%d wrong\n", failures);
    return failures != 0;
}
