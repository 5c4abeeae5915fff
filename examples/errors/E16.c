int a _Checked[4];
int main(void) { array_ptr<int> p : count(-1) = a; return 0; }
