#include <stdio.h>
/* Every statement: loops, jumps, labels, an else that belongs to an if further in, and empty bodies. */
int steps;
static int step(void) { steps = steps + 1; return steps; }
int deep(int n)
{
    if (n > 0)
        if (n > 5)
            return n;
        else
            return deep(n + 1) + 1;
    return 0;
}
int main(void)
{
    int i, j = 0;
    for (;;) {
        if (j == 3) break;
        else if (j == 1) { j = j + 1; continue; }
        else j++;
        ;
    }
    do j--; while (j > 0);
    while (step() < 5);
    for (i = 0; i < 4; i++)
        for (int k = 0; k < i; k++)
            printf("%d%d ", i, k);
    puts("");
again:
    j = j + 1;
    {
        int j = 10;
        j++;
        if (steps < 8) { step(); goto again; }
    }
    if (j < 6) { j = 6; goto again; }
    printf("%d %d %d %d\n", j, steps, deep(0), deep(3));
    return j - 7;
}
