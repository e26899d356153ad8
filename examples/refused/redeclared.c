// refused Redeclared 32 line 6
// A name is declared twice in one scope.
int main(void)
{
    int count = 1;
    char count = 2;
    return count;
}
