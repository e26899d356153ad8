/* needs: */
/* The status that a shell shows of a program that aborts. */
void abort(void)
{
    exit(134);
}
