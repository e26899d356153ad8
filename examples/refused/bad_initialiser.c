// refused BadInitialiser 37 line 5
// There are more initialisers than elements.
int main(void)
{
    int a[2] = {1, 2, 3};
    return a[0];
}
