#include <stdio.h>

static int step(int a, int b)
{
    return a + b % 3;
}

int main(void)
{
    int sum = 0;
    for (int i = 0; i < 20000000; i++)
        sum = step(sum, i);
    printf("%d\n", sum);
    return 0;
}
