int a _Checked[4];
int main(void) { return a[4]; }
