/* Prints, for graphs of n roots and m edges to them in turn, the length of the image and the room for it. */
#include "glouds.h"

#include <stdio.h>

int main(void)
{
    static const unsigned nodes[] = {1, 2, 63, 64, 65, 129, 1000, 30000};
    static const unsigned edges[] = {0, 1, 21, 22, 64, 1000, 30001, 65535};
    for (size_t i = 0; i < sizeof nodes / sizeof nodes[0]; i++)
        for (size_t j = 0; j < sizeof edges / sizeof edges[0]; j++) {
            size_t n = nodes[i], m = edges[j];
            size_t marked = n < m ? n : m;
            size_t length = glouds_image_length(n, m, n, marked);
            printf("%zu %zu %zu %zu\n", n, m, length, GLOUDS_IMAGE_ROOM(2 + n + m + n));
        }
    return 0;
}
