class Main {
  static void main() {
    System.out.println(2 + 3 * 4);
    System.out.println((2 + 3) * 4);
  }
}
