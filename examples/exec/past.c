#include <stdio.h>

int total(int *numbers, int count)
{
    int sum = 0;
    for (int i = 0; i <= count; i++)
        sum += numbers[i];
    return sum;
}

int main(void)
{
    int numbers[3] = { 1, 2, 3 };
    puts("adding three numbers");
    printf("%d\n", total(numbers, 3));
    return 0;
}
