import java.util.ArrayDeque;
import java.util.Deque;
import java.util.HashMap;
import java.util.Map;

/** An interpreter of Brainfuck: eight commands on a tape of bytes. */
public class Brainfuck {
    private static final int SIZE = 3000;

    private final String program;
    private final Map<Integer, Integer> jumps = new HashMap<>();
    private final byte[] tape = new byte[SIZE];
    private int pointer;
    private int steps;

    public Brainfuck(String program) {
        this.program = program;
        Deque<Integer> open = new ArrayDeque<>();
        for (int i = 0; i < program.length(); i++) {
            char c = program.charAt(i);
            if (c == '[') {
                open.push(i);
            } else if (c == ']') {
                if (open.isEmpty()) {
                    throw new IllegalArgumentException("unmatched ] at " + i);
                }
                int start = open.pop();
                jumps.put(start, i);
                jumps.put(i, start);
            }
        }
        if (!open.isEmpty()) {
            throw new IllegalArgumentException("unmatched [ at " + open.peek());
        }
    }

    public String run(String input) {
        StringBuilder output = new StringBuilder();
        int read = 0;
        for (int pc = 0; pc < program.length(); pc++) {
            steps++;
            switch (program.charAt(pc)) {
                case '>':
                    pointer++;
                    break;
                case '<':
                    pointer--;
                    break;
                case '+':
                    tape[pointer]++;
                    break;
                case '-':
                    tape[pointer]--;
                    break;
                case '.':
                    output.append((char) tape[pointer]);
                    break;
                case ',':
                    tape[pointer] = read < input.length() ? (byte) input.charAt(read++) : 0;
                    break;
                case '[':
                    if (tape[pointer] == 0) {
                        pc = jumps.get(pc);
                    }
                    break;
                case ']':
                    if (tape[pointer] != 0) {
                        pc = jumps.get(pc);
                    }
                    break;
                default:
                    steps--;
            }
        }
        return output.toString();
    }

    public int getSteps() {
        return steps;
    }

    public static void main(String[] args) {
        String hello = "++++++++[>++++[>++>+++>+++>+<<<<-]>+>+>->>+[<]<-]>>.>---.+++++++..+++.>>.<-.<.+++.------.--------.>>+.>++.";
        Brainfuck first = new Brainfuck(hello);
        System.out.print(first.run(""));
        System.out.println(first.getSteps() + " steps");

        Brainfuck reverse = new Brainfuck(">,[>,]<[.<]");
        System.out.println(reverse.run(args.length > 0 ? args[0] : "stressed"));

        try {
            new Brainfuck("[[]");
        } catch (IllegalArgumentException e) {
            System.out.println("Error: " + e.getMessage());
        }
    }
}
