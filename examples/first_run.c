int g = 1;

int main(void) {
  ptr<int> p = &g;
  *p = 41;
  return g + 1;
}
