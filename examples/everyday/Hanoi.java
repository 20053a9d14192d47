import java.util.ArrayDeque;
import java.util.Deque;

/** The towers of Hanoi, and other classic recursions. */
public class Hanoi {
    private final Deque<Integer>[] pegs;
    private int moves;

    @SuppressWarnings("unchecked")
    Hanoi(int n) {
        pegs = new Deque[3];
        for (int i = 0; i < pegs.length; i++) {
            pegs[i] = new ArrayDeque<>();
        }
        for (int disc = n; disc > 0; disc--) {
            pegs[0].push(disc);
        }
    }

    void move(int n, int from, int to) {
        if (n == 0) {
            return;
        }
        int other = 3 - from - to;
        move(n - 1, from, other);
        int disc = pegs[from].pop();
        if (!pegs[to].isEmpty() && pegs[to].peek() < disc) {
            throw new IllegalStateException("disc " + disc);
        }
        pegs[to].push(disc);
        moves++;
        move(n - 1, other, to);
    }

    static int fibonacci(int n) {
        return n < 2 ? n : fibonacci(n - 1) + fibonacci(n - 2);
    }

    static int ackermann(int m, int n) {
        if (m == 0) return n + 1;
        else if (n == 0) return ackermann(m - 1, 1);
        else return ackermann(m - 1, ackermann(m, n - 1));
    }

    static boolean isPalindrome(String s) {
        return s.length() < 2 || s.charAt(0) == s.charAt(s.length() - 1)
            && isPalindrome(s.substring(1, s.length() - 1));
    }

    static void permute(String front, String rest) {
        if (rest.isEmpty()) {
            System.out.print(front + " ");
        }
        for (int i = 0; i < rest.length(); i++) {
            permute(front + rest.charAt(i), rest.substring(0, i) + rest.substring(i + 1));
        }
    }

    static String binary(int n) {
        return n < 2 ? "" + n : binary(n / 2) + n % 2;
    }

    public static void main(String[] args) {
        Hanoi towers = new Hanoi(5);
        System.out.println(towers.pegs[0]);
        towers.move(5, 0, 2);
        System.out.println(towers.pegs[2] + " in " + towers.moves + " moves");
        System.out.println(fibonacci(15) + " " + ackermann(2, 3) + " " + binary(37));
        String[] words = {"otto", "anna", "kayak", "kaba", ""};
        for (String word : words) {
            System.out.println(word + (isPalindrome(word) ? " is" : " is not") + " a palindrome");
        }
        permute("", "abc");
        System.out.println();
    }
}
