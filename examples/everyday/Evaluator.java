import java.util.ArrayDeque;
import java.util.ArrayList;
import java.util.Deque;
import java.util.HashMap;
import java.util.List;
import java.util.Map;

/** Shunting-yard: infix to postfix, and its value. */
public class Evaluator {
    private static final Map<Character, Integer> PRECEDENCE = new HashMap<>();

    static {
        PRECEDENCE.put('+', 1);
        PRECEDENCE.put('-', 1);
        PRECEDENCE.put('*', 2);
        PRECEDENCE.put('/', 2);
        PRECEDENCE.put('%', 2);
        PRECEDENCE.put('^', 3);
    }

    static List<String> toPostfix(String infix) {
        List<String> output = new ArrayList<>();
        Deque<Character> operators = new ArrayDeque<>();
        int i = 0;
        while (i < infix.length()) {
            char c = infix.charAt(i);
            if (Character.isWhitespace(c)) {
                i++;
                continue;
            }
            if (Character.isDigit(c)) {
                int start = i;
                while (i < infix.length() && Character.isDigit(infix.charAt(i))) {
                    i++;
                }
                output.add(infix.substring(start, i));
                continue;
            }
            if (c == '(') {
                operators.push(c);
            } else if (c == ')') {
                while (operators.peek() != '(') {
                    output.add(String.valueOf(operators.pop()));
                }
                operators.pop();
            } else {
                while (!operators.isEmpty() && operators.peek() != '('
                        && (PRECEDENCE.get(operators.peek()) > PRECEDENCE.get(c)
                        || PRECEDENCE.get(operators.peek()).equals(PRECEDENCE.get(c)) && c != '^')) {
                    output.add(String.valueOf(operators.pop()));
                }
                operators.push(c);
            }
            i++;
        }
        while (!operators.isEmpty()) {
            output.add(String.valueOf(operators.pop()));
        }
        return output;
    }

    static int evaluate(List<String> postfix) {
        Deque<Integer> stack = new ArrayDeque<>();
        for (String token : postfix) {
            if (Character.isDigit(token.charAt(0))) {
                stack.push(Integer.parseInt(token));
                continue;
            }
            int right = stack.pop();
            int left = stack.pop();
            switch (token) {
                case "+" -> stack.push(left + right);
                case "-" -> stack.push(left - right);
                case "*" -> stack.push(left * right);
                case "/" -> {
                    if (right == 0) {
                        throw new ArithmeticException("Division by zero");
                    }
                    stack.push(left / right);
                }
                case "%" -> stack.push(left % right);
                case "^" -> stack.push(power(left, right));
                default -> throw new IllegalStateException("Unknown operator " + token);
            }
        }
        return stack.pop();
    }

    private static int power(int base, int exponent) {
        int result = 1;
        while (exponent > 0) {
            if ((exponent & 1) == 1) {
                result *= base;
            }
            base *= base;
            exponent >>= 1;
        }
        return result;
    }

    public static void main(String[] args) {
        String[] tests = {"1 + 2 * 3", "(1 + 2) * 3", "2 ^ 3 ^ 2", "10 - 4 - 3", "100 / (2 + 3) % 7", "7 / (3 - 3)"};
        for (String test : tests) {
            List<String> postfix = toPostfix(test);
            System.out.print(test + " -> " + String.join(" ", postfix) + " = ");
            try {
                System.out.println(evaluate(postfix));
            } catch (ArithmeticException e) {
                System.out.println("error: " + e.getMessage());
            }
        }
    }
}
