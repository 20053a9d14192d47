import java.util.ArrayList;
import java.util.HashMap;
import java.util.List;
import java.util.Map;

/** A small language with variables: tokens, commands, an interpreter. */
public class Tokens {
    enum Type { NUMBER, NAME, MARK, END }

    static class Token {
        final Type type;
        final String text;

        Token(Type type, String text) {
            this.type = type;
            this.text = text;
        }

        boolean is(String mark) {
            return type == Type.MARK && text.equals(mark);
        }

        @Override
        public String toString() {
            return type + ":" + text;
        }
    }

    static List<Token> scan(String line) {
        List<Token> tokens = new ArrayList<>();
        int i = 0;
        while (i < line.length()) {
            char c = line.charAt(i);
            if (Character.isWhitespace(c)) {
                i++;
            } else if (Character.isDigit(c)) {
                int start = i;
                while (i < line.length() && Character.isDigit(line.charAt(i))) i++;
                tokens.add(new Token(Type.NUMBER, line.substring(start, i)));
            } else if (Character.isLetter(c)) {
                StringBuilder name = new StringBuilder();
                do {
                    name.append(line.charAt(i++));
                } while (i < line.length() && Character.isLetterOrDigit(line.charAt(i)));
                tokens.add(new Token(Type.NAME, name.toString()));
            } else {
                tokens.add(new Token(Type.MARK, String.valueOf(line.charAt(i++))));
            }
        }
        tokens.add(new Token(Type.END, ""));
        return tokens;
    }

    private final Map<String, Integer> variables = new HashMap<>();
    private List<Token> tokens;
    private int at;

    private Token next() {
        return tokens.get(at++);
    }

    private int operand() {
        Token token = next();
        switch (token.type) {
            case NUMBER:
                return Integer.parseInt(token.text);
            case NAME:
                Integer value = variables.get(token.text);
                if (value == null) throw new RuntimeException("unknown " + token.text);
                return value;
            default:
                throw new RuntimeException("unexpected " + token);
        }
    }

    private int sum() {
        int value = operand();
        while (true) {
            Token token = tokens.get(at);
            if (token.is("+")) {
                at++;
                value += operand();
            } else if (token.is("-")) {
                at++;
                value -= operand();
            } else if (token.is("*")) {
                at++;
                value *= operand();
            } else {
                return value;
            }
        }
    }

    String run(String line) {
        tokens = scan(line);
        at = 0;
        if (tokens.get(0).type == Type.NAME && tokens.get(1).is("=")) {
            String name = next().text;
            next();
            variables.put(name, sum());
            return name + " is " + variables.get(name);
        }
        return "" + sum();
    }

    public static void main(String[] args) {
        Tokens machine = new Tokens();
        System.out.println(scan("x1 = 20+y"));
        String[] lines = {"a = 6", "b = a + 3", "c = a * b - 4", "c + c"};
        for (String line : lines) System.out.println(machine.run(line));
        for (String arg : args) machine.variables.put(arg, arg.length());
        System.out.println(machine.variables.size() + " variables");
        System.out.println(machine.run("a + nothing"));
    }
}
