/* Draws a tree of three nodes, checks the drawing, and prints it; then draws the tree wide. See examples/check. */
#include <stdio.h>
#include "bt.h"

static void print_points(const uint16_t *placements)
{
    for (int k = 1; k <= 3; k++)
        printf("%d at column %u, row %u\n", k, placements[2 * k], placements[2 * k + 1]);
}

int main(void)
{
    /* The head, then a root with two leaves. */
    static const uint8_t table[] = {
        1, 0, 1, 0, 0, 0, 0, 0,
        2, 0, 2, 0, 3, 0, 7, 0,
        3, 0, 0, 0, 0, 0, 8, 0,
        0, 0, 0, 0, 0, 0, 9, 0,
    };
    uint16_t placements[8] = {0};
    uint64_t drawn = bt_draw(table, sizeof table, placements, 8);
    if (bt_refusal(drawn) != 0) {
        printf("refused %u\n", bt_refusal(drawn));
        return 1;
    }
    printf("%u nodes, %u wide (at most %u), %u high, check %u\n", bt_nodes(drawn), bt_width(drawn), (unsigned)bt_allowed_width(bt_nodes(drawn)), bt_height(drawn),
           (unsigned)bt_check(table, sizeof table, placements, 8));
    print_points(placements);
    drawn = bt_draw_wide(table, sizeof table, placements, 8);
    printf("wide: %u wide, %u high (at most %u)\n", bt_width(drawn), bt_height(drawn), (unsigned)bt_allowed_width(bt_nodes(drawn)));
    print_points(placements);
    return 0;
}
