// refused NotConstant 36 line 6
// The size of an array is no constant.
int main(void)
{
    int count = 3;
    int a[count];
    return sizeof(a);
}
