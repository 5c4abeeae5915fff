int main(void) { int n = 2; array_ptr<int> p : count(n); n = n * 2; return 0; }
