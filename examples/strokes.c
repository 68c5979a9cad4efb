/* Draws the sample table of the program, and prints the strokes of the plotter's pen in millimetres, on a grid of 2.5 mm. See examples/check. */
#include <stdio.h>
#include "bt.h"

enum { PITCH = 10 };    /* quarter millimetres */

static int refused(uint64_t answer)
{
    if (bt_refusal(answer) != 0)
        printf("refused %u\n", bt_refusal(answer));
    return bt_refusal(answer) != 0;
}

int main(void)
{
    /* The head, then records 1 to 6, chained in that order: 1 is the root with children 2 and 3, 3 has 4 and 5, and 5 has 6 on its left. */
    static const uint8_t table[] = {
        1, 0, 1, 0, 0, 0, 0, 0,
        2, 0, 2, 0, 3, 0, 101, 0,
        3, 0, 0, 0, 0, 0, 102, 0,
        4, 0, 4, 0, 5, 0, 103, 0,
        5, 0, 0, 0, 0, 0, 104, 0,
        6, 0, 6, 0, 0, 0, 105, 0,
        0, 0, 0, 0, 0, 0, 106, 0,
    };
    uint16_t placements[14] = {0};
    if (refused(bt_draw(table, sizeof table, placements, 14)))
        return 1;
    for (uint64_t k = 0;; k++) {
        double point[2];
        uint32_t stroke = bt_stroke(table, sizeof table, placements, 14, PITCH, k, point, 2);
        if (refused(stroke))
            return 1;
        if (bt_pen(stroke) == BT_PEN_DONE) {
            puts("done");
            return 0;
        }
        /* Nine digits show every quarter up to 65,535 * 255 / 4. */
        printf("%s %.9g %.9g\n", bt_pen(stroke) == BT_PEN_LIFT ? "lift" : "draw", point[0], point[1]);
    }
}
