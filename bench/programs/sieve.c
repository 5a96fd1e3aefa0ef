#include <stdio.h>

char composite[10000000];

int main(void)
{
    int count = 0;
    for (int i = 2; i < 10000000; i++) {
        if (!composite[i]) {
            count++;
            for (int j = i + i; j < 10000000; j += i)
                composite[j] = 1;
        }
    }
    printf("%d\n", count);
    return 0;
}
