/* Hangs a root with two leaves in an empty tree, draws it, and cuts a leaf off; then holds a place and hangs there what was held. See examples/check. */
#include <stdio.h>
#include "bt.h"

/* The head, whose right names the first of four free records. */
static uint8_t table[] = {
    0, 0, 0, 0, 1, 0, 0, 0,
    2, 0, 0, 0, 0, 0, 0, 0,
    3, 0, 0, 0, 0, 0, 0, 0,
    4, 0, 0, 0, 0, 0, 0, 0,
    0, 0, 0, 0, 0, 0, 0, 0,
};

static void hang(uint16_t parent, uint8_t side, uint16_t tag)
{
    uint32_t hung = bt_hang(table, sizeof table, parent, side, tag);
    if (bt_refusal(hung) != 0)
        printf("hang at %u, side %u: refused %u\n", parent, side, bt_refusal(hung));
    else
        printf("hang at %u, side %u: record %u\n", parent, side, bt_leaf(hung));
}

static uint16_t hold(uint16_t parent, uint8_t side)
{
    uint32_t held = bt_hold(table, sizeof table, parent, side);
    printf("hold at %u, side %u: record %u\n", parent, side, bt_leaf(held));
    return bt_leaf(held);
}

static void hang_held(uint16_t parent, uint8_t side, uint16_t tag, uint16_t record)
{
    printf("hang record %u at %u, side %u: %u\n", record, parent, side, (unsigned)bt_hang_held(table, sizeof table, parent, side, tag, record));
}

static void cut(uint16_t node)
{
    printf("cut %u: %u\n", node, (unsigned)bt_cut(table, sizeof table, node));
}

static void draw(void)
{
    uint16_t placements[10] = {0};
    uint64_t drawn = bt_draw(table, sizeof table, placements, 10);
    printf("%u nodes, %u wide, %u high\n", bt_nodes(drawn), bt_width(drawn), bt_height(drawn));
}

int main(void)
{
    hang(0, 0, 101);
    hang(1, 0, 102);
    hang(1, 1, 103);
    hang(1, 1, 104); /* that side is taken */
    draw();
    cut(1); /* it has children */
    cut(2);
    draw();
    hang(3, 1, 105);
    draw();
    uint16_t held = hold(1, 0);
    cut(2);
    hang_held(1, 0, 106, held); /* record 2 would now be used */
    held = hold(1, 0);
    hang_held(1, 0, 106, held);
    draw();
    return 0;
}
