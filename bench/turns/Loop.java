class Loop {
  static void main() {
    int i = 0;
    int s = 0;
    while (i < 10000000) {
      s = s + i;
      i = i + 1;
    }
    System.out.println(s);
  }
}
