/* The cases of bounds of 0 of docs/free-lines.md through the C interface: the figures are copied from there. */
#include "support.h"

static const uint32_t net_f[30] = {0, 1, 3, 0, 5, 1, 2, 0, 0, 2, 2, 3, 3, 0, 5, 0, 3, 4, 1, 10, 0, 1, 0, 5, 10, 2, 3, 0, 5, 10};

int main(void)
{
    static const uint32_t free_path[3] = {0, 1, 2}, instant[3] = {4, 1, 5}, straight[1] = {3}, between[1] = {1};
    load(4, net_a, 20, no_holds);
    refused("F1", quote(0, 3, 1, 0, 20, 8));
    refused("F2", quote(0, 3, 1, 9, 0, 8));
    refused("F3", quote(0, 3, 1, 0, 0, 8));
    load(4, net_f, 30, no_holds);
    granted("F4", quote(0, 3, 1, 10, 0, 8), 1, 6, 0, free_path, 3);
    refused("F5", quote(0, 3, 1, 5, 0, 8));
    refused("F6", quote(0, 3, 3, 10, 0, 8));
    granted("F8", quote(0, 3, 1, 0, 10, 8), 1, 0, 10, instant, 3);
    granted("F9", quote(0, 3, 1, 0, 10, 5), 2, 0, 10, instant, 3);
    refused("F10", quote(0, 3, 1, 0, 9, 8));
    granted("F11", quote(1, 2, 1, 0, 0, 1), 1, 0, 0, between, 1);
    refused("F12", quote(0, 3, 1, 0, 0, 8));
    granted("F7", admit(1, 0, 3, 2, 10, 0, 8), 1, 6, 0, free_path, 3);
    refused("F7, link 1 full", quote(0, 3, 1, 10, 0, 8));
    granted("F7, one point", quote(0, 3, 1, 10, 1, 8), 1, 4, 1, straight, 1);
    return failures != 0;
}
