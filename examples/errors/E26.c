int g;
int main(void) { ptr<int> p = &g; return p < &g; }
