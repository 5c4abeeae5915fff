int a _Checked[4];
int main(void) {
  int n = next_input();
  array_ptr<int> p : count(n) = _Dynamic_bounds_cast<array_ptr<int>>(a, count(n));
  return p[0];
}
