_Tainted int t(int x);
int g;
int main(void) { return t(&g); }
