#include <stdio.h>
#include <string.h>

int main(void)
{
    char line[200];
    for (int i = 0; i < 400000; i++) {
        strcpy(line, "");
        for (int j = 0; j < 20; j++)
            strcat(line, "word ");
        printf("%6d %s\n", i, line);
    }
    return 0;
}
