int a _Checked[4];
array_ptr<int> first(int n) : count(n) {
  if (n > 4) n = 4;
  return a;
}
int main(void) { return 0; }
