// Two classes whose initialisers use one another.
class First {
    static int a = Second.b + 1;
}

class Second {
    static int b = First.a + 1;

    static void main() {
        System.out.println(First.a);
        System.out.println(Second.b);
    }
}
