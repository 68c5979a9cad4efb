/* Checks a sheet on which one node is moved by hand, and names the lines that cross or touch. See examples/check. */
#include <stdio.h>
#include "bt.h"

/* The head, then a root with two children, of which the left one has a right child. */
static const uint8_t table[] = {
    1, 0, 1, 0, 0, 0, 0, 0,
    2, 0, 2, 0, 3, 0, 7, 0,
    3, 0, 0, 0, 4, 0, 8, 0,
    4, 0, 0, 0, 0, 0, 9, 0,
    0, 0, 0, 0, 0, 0, 10, 0,
};

/* Its lines, each from a node to a child. */
static const uint16_t lines[3][2] = {{1, 2}, {1, 3}, {2, 4}};

static uint16_t placements[] = {0, 0, 4, 0, 0, 4, 4, 8, 0, 0};

static uint32_t compare(const uint16_t *a, const uint16_t *b)
{
    const uint16_t *p = placements + 2 * a[0], *q = placements + 2 * a[1], *r = placements + 2 * b[0], *s = placements + 2 * b[1];
    return bt_compare(p[0], p[1], q[0], q[1], r[0], r[1], s[0], s[1]);
}

static void check_with(uint16_t column, uint16_t row)
{
    placements[8] = column;
    placements[9] = row;
    printf("4 at column %u, row %u: check %u\n", column, row, (unsigned)bt_check(table, sizeof table, placements, 10));
    for (int i = 0; i < 3; i++)
        for (int j = i + 1; j < 3; j++) {
            uint32_t meeting = compare(lines[i], lines[j]);
            if (meeting == BT_CROSSING || meeting == BT_TOUCHING)
                printf("%u-%u and %u-%u %s\n", lines[i][0], lines[i][1], lines[j][0], lines[j][1], meeting == BT_CROSSING ? "cross" : "touch");
        }
}

int main(void)
{
    check_with(3, 4);
    check_with(5, 4); /* beyond the line from 1 to 3 */
    check_with(4, 4); /* on that line */
    return 0;
}
