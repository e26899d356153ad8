/* needs: strcat strncat strstr strspn strcspn strpbrk strtok atoi atol ispunct isalnum toupper srand rvcc_put_s rvcc_put_d rvcc_assert */
/* A program's own functions of these names change nothing in others of the library. */
unsigned int strlen(const char *text) { return text[0] ? 77 : 99; }
char *strchr(const char *text, int c) { return 0; }
char *strcpy(char *to, const char *from) { return to; }
int strncmp(const char *a, const char *b, unsigned int count) { return 5; }
int isdigit(int c) { return 0; }
int isalpha(int c) { return 0; }
int isspace(int c) { return 1; }
int isgraph(int c) { return 0; }
int islower(int c) { return 0; }
int rand(void) { return 4; }
void abort(void) { putchar('!'); }

static void number(int value)
{
    rvcc_put_d(value, 4, 0, 0);
}

int main(void)
{
    char room[20] = "ab";
    strcat(room, "cd");
    strncat(room, "efg", 2);
    rvcc_put_s(room, 8, 0);
    number(strstr(room, "cd") - room); number(strspn(room, "abc")); number(strcspn(room, "d"));
    number(strpbrk(room, "xc") - room); number(strtok(room, "d") == room); number(strtok(0, "d") - room);
    number(atoi(" -12")); number(atol("34")); number(ispunct('!')); number(isalnum('a')); number(toupper('a'));
    srand(3);
    number(rand() + strlen("") + isdigit('1'));
    putchar('\n');
    rvcc_assert("0", "own.c", 1);
    return 0;
}
