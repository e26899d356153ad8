// refused BadJump 40 line 5
// There is no loop to leave.
int main(void)
{
    break;
    return 0;
}
