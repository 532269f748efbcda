// An interface without members and a class without any of its own.
interface Nothing {
}

abstract class Less implements Nothing {
    abstract void none(boolean[][] a, Less b, int c);
}

class Empty {
}
