// Each operator on int, and numbers that need both halves.
class Arithmetic {
    static int all(int a, int b) {
        int sum = a + b - a * b;
        sum += a / b;
        sum -= a % b;
        sum ^= a & b | 0x7ff;
        sum <<= b;
        sum >>= a;
        sum >>>= 3;
        sum *= -b;
        sum |= ~a;
        sum &= 2147483647;
        return sum + -2147483648 + 4096 + 2048 + -2049;
    }

    static boolean compares(int a, int b) {
        boolean less = a < b;
        boolean more = a > b;
        return less & a <= b | more ^ a >= b && a != b || !(a == b);
    }

    static void main() {
        System.out.println(all(17, 5));
        System.out.println(compares(3, 4));
    }
}
