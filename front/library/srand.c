/* needs: rvcc_rand_state */
void srand(unsigned int seed)
{
    rvcc_rand_state = seed;
}
