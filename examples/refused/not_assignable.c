// refused NotAssignable 33 line 6
// A constant variable is assigned.
int main(void)
{
    const int limit = 1;
    limit = 2;
    return limit;
}
