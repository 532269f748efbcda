// Constants, static and instance fields, their updates, and what initialises them.
class Fields {
    static final int WIDTH = 12;
    static final boolean WIDE = WIDTH > 10;
    static int made = WIDTH;
    final int number = 7;
    int kept = number + made;
    boolean[] marks = new boolean[WIDTH];
    Fields next;

    Fields() {
        made++;
        next = this;
    }

    Fields(int kept) {
        this();
        this.kept = kept;
        this.kept += number;
        this.kept <<= 1;
        next.kept--;
        --made;
        marks[kept & 7] |= WIDE;
        marks[1] ^= true;
    }

    int rest() {
        return this.kept++ + ++next.kept + Fields.made-- + new Fields().number;
    }

    static void main() {
        Fields first = new Fields(3);
        System.out.println(first.rest());
        System.out.println(first.marks[3]);
    }
}
