/* needs: abs labs atoi atol strtol strtoul rvcc_put_d rvcc_put_u rvcc_put_text */
static void line(int value)
{
    rvcc_put_d(value, 0, 0, 0);
    putchar('\n');
}

static void read(const char *text, int base)
{
    char *end;
    rvcc_put_d(strtol(text, &end, base), 12, 0, 0);
    rvcc_put_d(end - text, 4, 0, 0);
    rvcc_put_u(strtoul(text, &end, base), 12, 0, 0);
    rvcc_put_d(end - text, 4, 0, 0);
    rvcc_put_d(strtol(text, 0, base) == strtol(text, &end, base), 3, 0, 0);
    rvcc_put_text(" \"");
    rvcc_put_text(text);
    rvcc_put_text("\"\n");
}

int main(void)
{
    line(abs(0)); line(abs(-1)); line(abs(2147483647)); line(abs(-2147483647)); line(labs(-5)); line(labs(7));
    line(atoi("")); line(atoi("0")); line(atoi("-")); line(atoi("+12x")); line(atoi(" \t\n\v\f\r-34 5")); line(atoi("- 3"));
    line(atoi("2147483647")); line(atoi("-2147483648")); line(atoi("007")); line(atoi("0x10")); line(atoi("+-3"));
    line(atol("-2147483648")); line(atol("99"));
    for (int base = 0; base <= 36; base += base == 0 ? 2 : base == 2 ? 6 : base == 8 ? 2 : base == 10 ? 6 : 20) {
        read("", base); read("0", base); read("-0", base); read("+", base); read("- 1", base); read("  \t12", base); read("0x", base);
        read("0xg", base); read("0x1F", base); read("-0X7fffffff", base); read("0x80000000", base); read("-0x80000000", base);
        read("-0x80000001", base); read("0xffffffff", base); read("0x100000000", base); read("-0xffffffff", base); read("017", base);
        read("089", base); read("2147483647", base); read("2147483648", base); read("-2147483648", base); read("-2147483649", base);
        read("4294967295", base); read("4294967296", base); read("-1", base); read("99999999999999999999", base);
        read("-99999999999999999999", base); read("1011012", base); read("zZ!", base); read("xyz", base); read("1z141z3", base);
        read("1z141z4", base); read("++1", base); read("00x1", base);
    }
    return 0;
}
