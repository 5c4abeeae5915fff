struct row { int n; array_ptr<int> cells : count(n); };
int main(void) { return 0; }
