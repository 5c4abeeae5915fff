int f(int n) { return f(n); }
int main(void) { return f(0); }
