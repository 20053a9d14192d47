/** A recursive descent parser for sums and products, with an expression tree. */
public class Calculator {
    interface Node {
        int value();

        String text();
    }

    static class Number implements Node {
        private final int number;

        Number(int number) {
            this.number = number;
        }

        public int value() {
            return number;
        }

        public String text() {
            return String.valueOf(number);
        }
    }

    static class Operation implements Node {
        private final char mark;
        private final Node left, right;

        Operation(char mark, Node left, Node right) {
            this.mark = mark;
            this.left = left;
            this.right = right;
        }

        public int value() {
            int a = left.value(), b = right.value();
            switch (mark) {
                case '+':
                    return a + b;
                case '-':
                    return a - b;
                case '*':
                    return a * b;
                case '/':
                    return a / b;
                default:
                    throw new IllegalStateException("mark " + mark);
            }
        }

        public String text() {
            return "(" + left.text() + " " + mark + " " + right.text() + ")";
        }
    }

    private final String input;
    private int at;

    Calculator(String input) {
        this.input = input;
    }

    private char peek() {
        while (at < input.length() && input.charAt(at) == ' ') at++;
        return at < input.length() ? input.charAt(at) : '\0';
    }

    private boolean accept(char c) {
        if (peek() != c) return false;
        at++;
        return true;
    }

    Node sum() {
        Node left = product();
        while (peek() == '+' || peek() == '-') {
            char mark = input.charAt(at++);
            left = new Operation(mark, left, product());
        }
        return left;
    }

    private Node product() {
        Node left = factor();
        for (char c = peek(); c == '*' || c == '/'; c = peek()) {
            at++;
            left = new Operation(c, left, factor());
        }
        return left;
    }

    private Node factor() {
        if (accept('(')) {
            Node inner = sum();
            if (!accept(')')) {
                throw new IllegalArgumentException("missing ) at " + at);
            }
            return inner;
        }
        if (accept('-')) {
            return new Operation('-', new Number(0), factor());
        }
        int number = 0, start = at;
        while (Character.isDigit(peek())) {
            number = number * 10 + (input.charAt(at++) - '0');
        }
        if (at == start) {
            throw new IllegalArgumentException("number expected at " + at);
        }
        return new Number(number);
    }

    public static void main(String[] args) {
        String[] inputs = {"1 + 2 * 3", "(1 + 2) * 3", "-4 * (2 - 9) / 5", "100 - 10 - 1", "2 * (3 + 4) * 5 - 6"};
        for (String one : inputs) {
            Node node = new Calculator(one).sum();
            System.out.println(node.text() + " = " + node.value());
        }
        if (args.length > 1) {
            System.out.println(new Calculator("7 / (2 - 2)").sum().value());
        }
        System.out.println(new Calculator("2 * (3 +").sum().text());
    }
}
