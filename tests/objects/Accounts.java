// An interface, an exception and two classes that stand on one another.
interface Account {
    int balance();
    void take(int amount) throws Overdraft;
}

class Overdraft extends Exception {
    int missing;

    Overdraft(int missing) {
        this.missing = missing;
    }
}

class Plain implements Account {
    private int cents;

    Plain(int cents) {
        this.cents = cents;
    }

    public int balance() {
        return cents;
    }

    int limit() {
        return 0;
    }

    public void take(int amount) throws Overdraft {
        if (amount > cents + limit()) {
            throw new Overdraft(amount - cents - limit());
        }
        cents -= amount;
    }
}

class Credit extends Plain {
    int line;

    Credit(int cents, int line) {
        super(cents);
        this.line = line;
    }

    int limit() {
        return super.limit() + line;
    }
}
