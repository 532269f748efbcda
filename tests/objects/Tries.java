// Catches in catches, a throw past them, and an initialiser that fails.
class Tries {
    static int depth = deeper(0);

    static int deeper(int n) {
        try {
            try {
                if (n == 0) {
                    throw new ArithmeticException();
                }
                return 10 / n;
            } catch (NullPointerException none) {
                n = 1;
            }
        } catch (ArithmeticException zero) {
            try {
                int[] few = new int[n - 1];
                few[0] = 1;
            } catch (NegativeArraySizeException negative) {
                n = 2;
            } catch (RuntimeException other) {
                throw other;
            }
        }
        return n;
    }

    static void main() {
        System.out.println(depth);
        Throwable last = null;
        throw null;
    }
}
