// refused BadOperands 34 line 6
// Two pointers are added.
int main(void)
{
    int a[2];
    int *p = a + (a + 1);
    return *p;
}
