/* needs: rand srand abort */
int main(void)
{
    int same = 1, within = 1, first[20];
    srand(1);
    for (int k = 0; k < 20; k++) first[k] = rand();
    for (int k = 0; k < 20; k++) within = within && 0 <= first[k] && first[k] <= 0x7fffffff;
    srand(1);
    for (int k = 0; k < 20; k++) same = same && rand() == first[k];
    srand(7);
    putchar('0' + same);
    putchar('0' + within);
    putchar('0' + (rand() == first[0]));
    putchar('\n');
    abort();
    putchar('!');
    return 0;
}
