// refused Limit 42 line 4 which 4 count 1048580
// The variables at file scope have more than 1,048,576 bytes, with four bytes more for each.
int a[262142];
int b;

int main(void) { return a[0] + b; }
