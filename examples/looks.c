_Tainted int t(int x);
int main(void) { return t(1) + 1; }
