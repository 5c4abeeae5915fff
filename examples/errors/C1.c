int main(void) { ptr<int> p = 0; return *p; }
