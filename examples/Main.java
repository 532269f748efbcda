class Main {
  static void main() {
    System.out.println(2 + 3 * 4);
    System.out.println((2 + 3) * 4);
    System.out.println(65536 * 65536 + 2147483647 + 1);
  }
}
