/* needs: */
unsigned int rvcc_rand_state = 1;
