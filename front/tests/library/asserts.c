/* needs: rvcc_assert */
int main(void)
{
    rvcc_assert("a < b", "file.c", 12);
    return 0;
}
