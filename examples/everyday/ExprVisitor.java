import java.util.*;

public class ExprVisitor {
    interface Visitor<R> {
        R visitNum(Num n);

        R visitBin(Bin b);

        R visitNeg(Neg n);
    }

    static abstract class Expr {
        abstract <R> R accept(Visitor<R> v);
    }

    static class Num extends Expr {
        final int value;

        Num(int value) { this.value = value; }

        @Override <R> R accept(Visitor<R> v) { return v.visitNum(this); }
    }

    static class Bin extends Expr {
        final char op;
        final Expr left, right;

        Bin(Expr left, char op, Expr right) { this.left = left; this.op = op; this.right = right; }

        @Override <R> R accept(Visitor<R> v) { return v.visitBin(this); }
    }

    static class Neg extends Expr {
        final Expr inner;

        Neg(Expr inner) { this.inner = inner; }

        @Override <R> R accept(Visitor<R> v) { return v.visitNeg(this); }
    }

    static class Printer implements Visitor<String> {
        public String visitNum(Num n) { return Integer.toString(n.value); }

        public String visitBin(Bin b) { return "(" + b.left.accept(this) + " " + b.op + " " + b.right.accept(this) + ")"; }

        public String visitNeg(Neg n) { return "-" + n.inner.accept(this); }
    }

    static class Evaluator implements Visitor<Integer> {
        private int operations;

        public Integer visitNum(Num n) { return n.value; }

        public Integer visitBin(Bin b) {
            operations++;
            int l = b.left.accept(this), r = b.right.accept(this);
            switch (b.op) {
                case '+': return l + r;
                case '-': return l - r;
                case '*': return l * r;
                case '/': return l / r;
                default: throw new IllegalArgumentException("op " + b.op);
            }
        }

        public Integer visitNeg(Neg n) { return -n.inner.accept(this); }
    }

    static class Depth implements Visitor<Integer> {
        public Integer visitNum(Num n) { return 1; }

        public Integer visitBin(Bin b) { return 1 + Math.max(b.left.accept(this), b.right.accept(this)); }

        public Integer visitNeg(Neg n) { return 1 + n.inner.accept(this); }
    }

    static class Parser {
        private final String s;
        private int p;

        Parser(String s) { this.s = s.replaceAll("\\s", ""); }

        Expr parse() {
            Expr e = sum();
            if (p < s.length()) throw new IllegalArgumentException("unexpected '" + s.charAt(p) + "' at " + p);
            return e;
        }

        private boolean eat(char c) {
            if (p < s.length() && s.charAt(p) == c) { p++; return true; }
            return false;
        }

        private Expr sum() {
            Expr e = product();
            for (;;) {
                if (eat('+')) e = new Bin(e, '+', product());
                else if (eat('-')) e = new Bin(e, '-', product());
                else return e;
            }
        }

        private Expr product() {
            Expr e = unary();
            while (true) {
                if (eat('*')) e = new Bin(e, '*', unary());
                else if (eat('/')) e = new Bin(e, '/', unary());
                else return e;
            }
        }

        private Expr unary() {
            if (eat('-')) return new Neg(unary());
            if (eat('(')) {
                Expr e = sum();
                if (!eat(')')) throw new IllegalArgumentException("missing )");
                return e;
            }
            int start = p;
            while (p < s.length() && Character.isDigit(s.charAt(p))) p++;
            if (start == p) throw new IllegalArgumentException("number expected at " + p);
            return new Num(Integer.parseInt(s.substring(start, p)));
        }
    }

    public static void main(String[] args) {
        String[] inputs = args.length > 0 ? args : new String[] {"1 + 2 * 3", "-(4 - 6) * 5", "10 / (5 - 5)", "2 *", "((7)"};
        for (String in : inputs) {
            try {
                Expr e = new Parser(in).parse();
                Evaluator ev = new Evaluator();
                System.out.println(e.accept(new Printer()) + " = " + e.accept(ev) + " [" + ev.operations + " ops, depth " + e.accept(new Depth()) + "]");
            } catch (ArithmeticException | IllegalArgumentException ex) {
                System.out.println(in + " -> " + ex.getClass().getSimpleName() + ": " + ex.getMessage());
            }
        }
    }
}
