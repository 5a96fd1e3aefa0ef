#include <stdio.h>

int main(void)
{
    long sum = 0;
    for (int i = 0; i < 50000000; i++)
        sum = sum + i % 7;
    printf("%ld\n", sum);
    return 0;
}
