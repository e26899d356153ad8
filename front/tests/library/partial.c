/* needs: memcpy(int,int,4) */
int a[2], b[2];

int main(void)
{
    putchar('a');
    rvcc_memcpy_int(a, b, 6);
    putchar('b');
    return 0;
}
