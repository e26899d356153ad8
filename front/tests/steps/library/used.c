#include <stdio.h>
#include <stdlib.h>
#include <string.h>
#include <ctype.h>
int main(void)
{
    char a[20];
    strcpy(a, "some ");
    strcat(a, "Text");
    puts(a);
    return (int)strlen(a) + (strcmp(a, "some") > 0) + abs(-4) + atoi("17") + (isalpha('x') != 0) + toupper('a') + (strchr(a, 'T') - a);
}
