/* needs: isalnum isalpha isblank iscntrl isdigit isgraph islower isprint ispunct isspace isupper isxdigit tolower toupper rvcc_put_d */
static void flag(int is)
{
    putchar(is ? 'x' : '.');
}

int main(void)
{
    for (int c = -1; c < 256; c++) {
        rvcc_put_d(c, 4, 0, 0);
        putchar(' ');
        flag(isalnum(c)); flag(isalpha(c)); flag(isblank(c)); flag(iscntrl(c)); flag(isdigit(c)); flag(isgraph(c));
        flag(islower(c)); flag(isprint(c)); flag(ispunct(c)); flag(isspace(c)); flag(isupper(c)); flag(isxdigit(c));
        rvcc_put_d(tolower(c), 5, 0, 0);
        rvcc_put_d(toupper(c), 5, 0, 0);
        putchar('\n');
    }
    return 0;
}
