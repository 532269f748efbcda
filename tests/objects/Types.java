// Casts and instance tests of classes, interfaces and arrays.
interface Named {
    int ID = 5;
    int name();
}

abstract class Shape implements Named {
    abstract int area();

    public int name() {
        return area() + ID;
    }
}

class Square extends Shape {
    int side;

    int area() {
        return side * side;
    }
}

class Types {
    static int kind(Object o) {
        if (o instanceof Square) {
            return ((Square) o).side;
        }
        if (o instanceof Named) {
            return ((Named) o).name();
        }
        if (o instanceof int[]) {
            return ((int[]) o)[0];
        }
        Object[] some = (Object[]) o;
        some[0] = some;
        return some.length;
    }

    static void main() {
        Square s = new Square();
        s.side = 4;
        Shape shape = s;
        System.out.println(kind(s) + shape.area() + kind(new Object[2]));
        System.out.println((s == null ? shape : s).name());
        Object[][] grid = new Object[3][];
        grid[0] = new Square[2];
        System.out.println(kind(grid[0]));
        new Object();
    }
}
