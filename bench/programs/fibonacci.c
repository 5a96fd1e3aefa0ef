#include <stdio.h>

static int fibonacci(int n)
{
    if (n < 2)
        return n;
    return fibonacci(n - 1) + fibonacci(n - 2);
}

int main(void)
{
    printf("%d\n", fibonacci(32));
    return 0;
}
