#include <stdio.h>
#include <stdbool.h>
/* Operators of every level, with and without parentheses that they need. */
int f(int a, int b) { return a - b; }
int main(void)
{
    int a = 7, b = 3, c = -2, i;
    int *p = &a, **q = &p;
    unsigned int u = 4000000000U;
    long l = 5000000000L;
    bool t = !0;
    for (i = 0; i < 3; i++) {
        printf("%d %d %d\n", a + b * c, (a + b) * c, a - (b - c));
        printf("%d %d %d\n", a - b - c, a / b % 2, a % (b / 2 + 1));
        printf("%d %d %d\n", a << 1 + 1, (a << 1) + 1, a >> 1 << 1);
        printf("%d %d %d\n", a < b == c < b, a < (b == c), (a & b) == 3);
        printf("%d %d %d\n", a & b | c ^ 5, a & (b | c) ^ 5, (a | b) && c || !t);
        printf("%d %d %d\n", - -a, -(-a), !!b);
        printf("%d %d %d\n", ~c, +c, - ~c);
        printf("%d %d\n", *p + **q, *&a);
        printf("%u %lu\n", u + 1, (unsigned long)(l * 2L));
        printf("%d %d\n", (int)sizeof(int), (int)sizeof a + (int)sizeof(int *));
        printf("%d %d\n", (char)(a * 100), (short)70000);
        a = b = b + 1;
        a += b -= 2;
        c <<= 1;
        *p *= 2;
        (*q)++;
        printf("%d %d %d %d\n", a, b, c, f(a++, 1));
    }
    return 0;
}
