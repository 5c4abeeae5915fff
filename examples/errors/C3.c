char word _Nt_checked[4] = {'a', 'b', 'c'};
int main(void) { word[3] = 'd'; return 0; }
