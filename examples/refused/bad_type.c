// refused BadType 38 line 5
// A variable has no value to hold.
int main(void)
{
    void nothing;
    return 0;
}
