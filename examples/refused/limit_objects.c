// refused Limit 42 line 3 which 3 count 65540
// The arrays of a function have more than 65,536 bytes, with four bytes more for each.
int main(void)
{
    char a[65536];
    a[0] = 1;
    return a[0];
}
