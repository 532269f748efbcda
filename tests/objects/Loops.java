// Each loop, with breaks and continues, and one that is too long for short branches.
class Loops {
    static int steps;

    static int count(int n) {
        int i = 0;
        do {
            if (i == 3) {
                i += 2;
                continue;
            }
            i++;
            if (i > n) {
                break;
            }
        } while (i < 100);
        while (true) {
            steps = steps + 1;
            if (steps % 7 == 0) {
                break;
            }
        }
        for (int k = 0, m = n; k < m; k++, m--) {
            if (k == m - 1) {
                continue;
            }
            i = i + k * m;
        }
        for (; ; ) {
            return i;
        }
    }

    static void main() {
        System.out.println(count(9));
    }
}
