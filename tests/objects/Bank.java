// Calls by interface and by class, arrays of references, a loop in a try.
class Bank {
    static Account[] all = new Account[4];

    static int sum(Account[] accounts) {
        int sum = 0;
        for (int i = 0; i < accounts.length; i++) {
            if (accounts[i] == null) {
                continue;
            }
            sum += accounts[i].balance();
        }
        return sum;
    }

    static void main(String[] args) {
        all[0] = new Plain(500);
        all[1] = new Credit(100, 300);
        try {
            all[1].take(350);
            System.out.println(sum(all));
            all[0].take(800);
        } catch (Overdraft refused) {
            System.out.println(refused.missing);
        }
    }
}
