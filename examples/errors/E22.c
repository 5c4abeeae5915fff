int main(void) { int x = 0; ptr<int> p = &x; return 0; }
