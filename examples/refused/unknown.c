// refused Unknown 31 line 5
// A name is used that is not declared.
int main(void)
{
    count = 1;
    return 0;
}
