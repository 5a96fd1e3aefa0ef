#include <stdio.h>
#include <string.h>

struct tally {
    int count;
    long sum;
};

char composite[100];

static void sieve(void)
{
    memset(composite, 0, sizeof composite);
    for (int i = 2; i < 100; i++)
        for (int j = i + i; j < 100; j += i)
            composite[j] = 1;
}

static struct tally *add(struct tally *t, int n)
{
    t->count++;
    t->sum += n;
    return t;
}

int main(void)
{
    struct tally t = { 0, 0 };
    sieve();
    for (int n = 2; n < 100; n++) {
        if (composite[n])
            continue;
        printf("%3d", n);
        if (add(&t, n)->count % 10 == 0)
            puts("");
    }
    printf("\n%d primes, whose sum is %ld\n", t.count, t.sum);
    fprintf(stderr, "a sieve of %lu bytes\n", sizeof composite);
    return t.count;
}
