/* Answers the number after the one that it is given. */
#include <stdio.h>
#include <stdlib.h>

int main(int count, char **words)
{
    if (count != 2)
        return 1;
    printf("%llu\n", strtoull(words[1], NULL, 10) + 1);
    return 0;
}
