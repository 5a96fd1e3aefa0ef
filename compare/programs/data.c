#include <stdio.h>
#include <string.h>
/* Structs, arrays, pointers and initializers; strings and characters with every kind of byte. */
struct point { int x, y; };
struct line { struct point from, to; char name[8]; struct line *next; };
struct { short a; unsigned char b[3]; } odd = {-5, {1, 2, 250}};
int grid[2][3] = {{1, 2, 3}, {4, 5, 6}};
char *words[] = {"one", "tw\157", "thr\x65" "e", "\"q\"\\\t?\?=", ""};
long total(int n, int m[][3])
{
    long sum = 0;
    int i, j;
    for (i = 0; i < n; i++)
        for (j = 0; j < 3; j++)
            sum += m[i][j];
    return sum;
}
int main(void)
{
    struct line a = {{1, 2}, {3, 4}, "first", NULL}, b, *p = &b;
    char text[16] = "ab";
    char c = 'x', d = '\'', e = '\377', *s;
    unsigned i;
    b = a;
    p->next = &a;
    (*p).to.y = p->next->from.x + 41;
    strcpy(p->name, "second");
    strcat(text, p->name);
    printf("%s %s %d %d\n", p->name, p->next->name, b.to.y, a.to.y);
    printf("%s %d %c %d %d\n", text, (int)strlen(text), c, d, e);
    printf("%ld %d %d %d\n", total(2, grid), odd.a, odd.b[2], (int)sizeof odd);
    for (i = 0; i < sizeof words / sizeof words[0]; i++)
        printf("[%s]", words[i]);
    printf("%%\n");
    for (s = text; *s; s++)
        if (*s >= 'b' && *s <= 'd')
            putchar(*s - 'a' + 'A');
    putchar('\n');
    printf("%d %d\n", (int)(s - text), memcmp("a\0b", "a\0c", 3) < 0);
    return 0;
}
