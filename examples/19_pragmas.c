/* Directives that leave no tokens. */
#pragma STDC whatever
#
#line 100 "other.c"
int a;
# 7
int b;
#pragma cake diagnostic push
#pragma cake diagnostic warning "F04"
int c;
#pragma cake diagnostic pop
