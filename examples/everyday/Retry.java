/** Exceptions that go through several methods: finally, rethrown causes, own classes, values from finally. */
public class Retry {
    static class Failed extends RuntimeException {
        private final int code;

        Failed(String message, int code) {
            super(message);
            this.code = code;
        }

        int code() {
            return code;
        }
    }

    static class Fatal extends Failed {
        Fatal(String message) {
            super(message, 99);
        }
    }

    private int attempts;
    private final StringBuilder log = new StringBuilder();

    int risky(int n) {
        attempts++;
        if (n % 3 == 0) throw new Failed("three", n);
        if (n % 5 == 0) throw new Fatal("five");
        if (n % 7 == 0) throw new IllegalArgumentException("seven");
        return n * 2;
    }

    int guarded(int n) {
        try {
            log.append('t');
            return risky(n);
        } catch (Fatal e) {
            log.append('F');
            throw new IllegalStateException("fatal " + e.code(), e);
        } catch (Failed e) {
            log.append('f');
            return -e.code();
        } finally {
            log.append('.');
        }
    }

    int loop() {
        int sum = 0;
        for (int i = 1; ; i++) {
            try {
                if (i == 8) continue;
                if (i == 11) break;
                sum += guarded(i);
            } catch (IllegalStateException e) {
                System.out.println("state: " + e.getMessage() + " because " + e.getCause().getMessage());
            } catch (RuntimeException e) {
                System.out.println(e);
            } finally {
                log.append(i % 10);
            }
        }
        return sum;
    }

    static String nested(String text) {
        try {
            try {
                return "number " + Integer.parseInt(text);
            } finally {
                System.out.println("parsed " + text);
            }
        } catch (NumberFormatException e) {
            return "no number";
        }
    }

    static void check(boolean good, String what) throws Exception {
        if (!good) {
            throw new Exception(what);
        }
    }

    public static void main(String[] args) {
        Retry retry = new Retry();
        System.out.println(retry.loop() + " " + retry.attempts);
        System.out.println(retry.log);
        System.out.println(nested("12") + " " + nested("1x"));
        try {
            check(args.length < 100, "many");
            check(args.length > 100, "few");
            System.out.println("never");
        } catch (Exception e) {
            System.out.println("caught " + e.getMessage());
        }
        retry.guarded(4);
        retry.guarded(14);
        System.out.println("not reached");
    }
}
