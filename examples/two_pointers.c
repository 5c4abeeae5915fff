int width = 7;
int height;
int area;

int main(void) {
  ptr<int> w = &width;
  ptr<int> same = &width;
  ptr<int> h = &height;
  *h = *w - 3;
  *same = 10;
  area = *w + *w + *w + *w - height;
  return area;
}
