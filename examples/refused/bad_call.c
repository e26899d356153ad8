// refused BadCall 35 line 7
// A function is called with too few arguments.
int sum(int a, int b) { return a + b; }

int main(void)
{
    return sum(1);
}
