// refused BadLabel 43 line 7
// Two labels of a switch have one value.
int main(void)
{
    switch (2) {
    case 1: return 1;
    case 3 - 2: return 2;
    }
    return 0;
}
