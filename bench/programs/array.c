#include <stdio.h>

int cells[1000];

int main(void)
{
    long sum = 0;
    for (int i = 0; i < 30000; i++)
        for (int j = 0; j < 1000; j++)
            cells[j] = (cells[j] + i) ^ j;
    for (int j = 0; j < 1000; j++)
        sum = sum + cells[j];
    printf("%ld\n", sum);
    return 0;
}
