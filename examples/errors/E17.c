int a _Checked[4];
int main(void) { ptr<int> p = a + 4; return 0; }
