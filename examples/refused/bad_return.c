// refused BadReturn 39 line 3
// A function without a result returns one.
void nothing(void) { return 1; }

int main(void)
{
    nothing();
    return 0;
}
