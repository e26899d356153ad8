/* needs: rvcc_rand_state */
/* The generator that stands in the C standard as an example: numbers from 0 to 32767. */
int rand(void)
{
    rvcc_rand_state = rvcc_rand_state * 1103515245 + 12345;
    return rvcc_rand_state / 65536 % 32768;
}
