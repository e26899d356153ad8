%:include <stdio.h>
%:define LAST(a) a<:2:>
int main(void) <%
    int a<:3:> = <% 1, 2, 40 %>;
    putchar(LAST(a) + 25);
    putchar('\n');
    return a[0] + a<:1:>;
%>
