import java.util.ArrayList;
import java.util.List;

/** Accounts with interest, fees and a history of what was done. */
public class Bank {
    private static final int START = 1000;
    private final String name;
    private final List<Account> accounts = new ArrayList<>();
    private int transfers = 0;

    public Bank(String name) {
        this.name = name;
    }

    abstract static class Account {
        private static int nextNumber = START;
        protected final String owner;
        protected int balance;
        private final int number;
        private final List<String> history = new ArrayList<>();

        Account(String owner, int balance) {
            this.owner = owner;
            this.balance = balance;
            number = nextNumber++;
            log("opened with " + balance);
        }

        protected void log(String line) {
            history.add(line);
        }

        boolean withdraw(int amount) {
            if (amount <= 0 || amount > available()) {
                log("refused " + amount);
                return false;
            }
            balance -= amount + fee();
            log("took " + amount);
            return true;
        }

        void deposit(int amount) {
            balance += amount;
            log("put " + amount);
        }

        int available() {
            return balance;
        }

        int fee() {
            return 0;
        }

        abstract void month();

        int number() {
            return number;
        }

        @Override
        public String toString() {
            return getClass().getSimpleName() + " " + number + " of " + owner + ": " + balance;
        }
    }

    static class Savings extends Account {
        private final int percent;

        Savings(String owner, int balance, int percent) {
            super(owner, balance);
            this.percent = percent;
        }

        @Override
        void month() {
            int interest = balance * percent / 1200;
            deposit(interest);
        }
    }

    static class Checking extends Account {
        private int overdraft = 200;

        Checking(String owner) {
            this(owner, 0);
        }

        Checking(String owner, int balance) {
            super(owner, balance);
        }

        @Override
        int available() {
            return balance + overdraft;
        }

        @Override
        int fee() {
            return 1;
        }

        @Override
        void month() {
            if (balance < 0) {
                balance -= 5;
                log("overdraft");
            }
        }
    }

    void open(Account account) {
        accounts.add(account);
    }

    Account find(int number) {
        for (Account account : accounts) {
            if (account.number() == number) {
                return account;
            }
        }
        return null;
    }

    boolean transfer(int from, int to, int amount) {
        Account source = find(from), target = find(to);
        if (source == null || target == null) {
            return false;
        }
        boolean done = source.withdraw(amount);
        if (done) {
            target.deposit(amount);
            transfers++;
        }
        return done;
    }

    int total() {
        int sum = 0;
        for (Account account : accounts) {
            sum += account.balance;
        }
        return sum;
    }

    public static void main(String[] args) {
        Bank bank = new Bank("Savings and more");
        bank.open(new Savings("Ann", 1200, 3));
        bank.open(new Checking("Bob"));
        bank.open(new Checking("Cem", 50));
        System.out.println(bank.transfer(1000, 1001, 300) ? "done" : "refused");
        System.out.println(bank.transfer(1001, 1002, 700) ? "done" : "refused");
        System.out.println(bank.transfer(1002, 1000, 240) ? "done" : "refused");
        System.out.println(bank.transfer(7, 1000, 1) ? "done" : "refused");
        for (int month = 1; month <= 3; month++) {
            for (Account account : bank.accounts) {
                account.month();
            }
        }
        for (Account account : bank.accounts) {
            System.out.println(account);
            for (String line : account.history) {
                System.out.println("  " + line);
            }
        }
        System.out.println(bank.name + ": " + bank.total() + " after " + bank.transfers + " transfers");
    }
}
