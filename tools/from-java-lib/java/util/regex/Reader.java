package java.util.regex;

import java.util.ArrayList;
import java.util.List;

/** Reads a pattern: steps that are linked one to the other. */
final class Reader {
    private static final int MANY = 2147483647;
    private String pattern;
    private int at;
    private Node last; // the last step of what was read
    private boolean anyCase;
    private boolean lines;
    private boolean dots;
    int groups = 1;
    int loops;
    List<String> names = new ArrayList<>();

    Node read(String pattern, int flags) {
        this.pattern = pattern;
        anyCase = (flags & 2) != 0;
        lines = (flags & 8) != 0;
        dots = (flags & 32) != 0;
        names.add("");
        Node first = choice();
        if (at < pattern.length()) {
            throw wrong("Unmatched closing ')'");
        }
        last.next = new Accept();
        return first;
    }

    private RuntimeException wrong(String message) {
        return new PatternSyntaxException(message, pattern, at);
    }

    private boolean is(char c) {
        return at < pattern.length() && pattern.charAt(at) == c;
    }

    private boolean take(String part) {
        boolean there = pattern.startsWith(part, at);
        if (there) {
            at += part.length();
        }
        return there;
    }

    private Node choice() {
        Node first = sequence();
        if (!is('|')) {
            return first;
        }
        Choice choice = new Choice();
        Joint end = new Joint();
        choice.parts.add(first);
        last.next = end;
        while (take("|")) {
            choice.parts.add(sequence());
            last.next = end;
        }
        last = end;
        return choice;
    }

    private Node sequence() {
        Node first = new Joint();
        Node end = first;
        while (at < pattern.length() && !is('|') && !is(')')) {
            end.next = repeated();
            end = last;
        }
        last = end;
        return first;
    }

    private Node repeated() {
        Node one = atom();
        Node end = last;
        while (is('*') || is('+') || is('?') || is('{')) {
            int least = is('+') ? 1 : 0;
            int most = is('?') ? 1 : MANY;
            if (is('{')) {
                at++;
                least = number();
                most = least;
                if (take(",")) {
                    most = is('}') ? MANY : number();
                }
                if (!is('}')) {
                    throw wrong("Unclosed counted closure");
                }
            }
            at++;
            boolean lazy = take("?");
            boolean keeps = !lazy && take("+");
            one = again(one, end, least, most, lazy, keeps);
            end = last;
        }
        last = end;
        return one;
    }

    private int number() {
        int value = 0;
        while (at < pattern.length() && pattern.charAt(at) >= '0' && pattern.charAt(at) <= '9') {
            value = 10 * value + pattern.charAt(at) - '0';
            at++;
        }
        return value;
    }

    private Node again(Node one, Node end, int least, int most, boolean lazy, boolean keeps) {
        if (one == end && one instanceof OneOf) {
            Run run = new Run();
            run.set = (OneOf) one;
            run.least = least;
            run.most = most;
            run.lazy = lazy;
            run.keeps = keeps;
            last = run;
            return run;
        }
        if (keeps) {
            throw new UnsupportedOperationException("a possessive group in the pattern " + pattern);
        }
        LoopStart start = new LoopStart();
        Loop loop = new Loop();
        start.loop = loop;
        loop.body = one;
        loop.slot = loops;
        loop.least = least;
        loop.most = most;
        loop.lazy = lazy;
        loops++;
        end.next = loop;
        last = loop;
        return start;
    }

    private Node atom() {
        char c = pattern.charAt(at);
        at++;
        if (c == '(') {
            return group();
        }
        if (c == '[') {
            return single(set());
        }
        if (c == '^' || c == '$') {
            return border(c);
        }
        if (c == '.') {
            return single(dots ? negated("") : negated("\n\n\r\r"));
        }
        if (c == '*' || c == '+' || c == '?') {
            at--;
            throw wrong("Dangling meta character '" + c + "'");
        }
        if (c == '\\') {
            return escaped();
        }
        return single(range(c, c));
    }

    private Node single(Node one) {
        last = one;
        return one;
    }

    private Node border(char kind) {
        Border border = new Border();
        border.kind = kind;
        border.lines = lines;
        return single(border);
    }

    private OneOf range(char first, char end) {
        OneOf made = new OneOf();
        made.ranges = "" + first + end;
        made.anyCase = anyCase;
        return made;
    }

    private OneOf negated(String ranges) {
        OneOf made = new OneOf();
        made.ranges = ranges;
        made.negated = true;
        return made;
    }

    private Node group() {
        if (take("?=") || take("?!")) {
            Ahead ahead = new Ahead();
            ahead.not = pattern.charAt(at - 1) == '!';
            ahead.body = choice();
            last.next = new Accept();
            close();
            return single(ahead);
        }
        if (take("?i)")) {
            anyCase = true;
            return single(new Joint());
        }
        if (take("?:")) {
            Node inner = choice();
            close();
            return inner;
        }
        String name = "";
        if (take("?<") && !is('=') && !is('!')) {
            int end = pattern.indexOf(">", at);
            name = pattern.substring(at, end);
            at = end + 1;
        } else if (is('?') || pattern.charAt(at - 1) == '<') {
            throw new UnsupportedOperationException("a group of a kind of its own in the pattern " + pattern);
        }
        GroupStart start = new GroupStart();
        GroupEnd end = new GroupEnd();
        start.group = groups;
        end.group = groups;
        groups++;
        names.add(name);
        start.next = choice();
        last.next = end;
        close();
        last = end;
        return start;
    }

    private void close() {
        if (!take(")")) {
            throw wrong("Unclosed group");
        }
    }

    private Node escaped() {
        if (at == pattern.length()) {
            throw wrong("Unexpected internal error");
        }
        char c = pattern.charAt(at);
        if (c == 'b' || c == 'B' || c == 'A' || c == 'z' || c == 'Z') {
            at++;
            return border(c);
        }
        if (c >= '1' && c <= '9') {
            at++;
            Same same = new Same();
            same.group = c - '0';
            return single(same);
        }
        if (c == 'Q') {
            return quoted();
        }
        return single(kind());
    }

    private Node quoted() {
        int from = at + 1;
        int end = pattern.indexOf("\\E", from);
        at = end < 0 ? pattern.length() : end + 2;
        String text = pattern.substring(from, end < 0 ? pattern.length() : end);
        Node first = new Joint();
        Node tail = first;
        for (int k = 0; k < text.length(); k++) {
            tail.next = range(text.charAt(k), text.charAt(k));
            tail = tail.next;
        }
        last = tail;
        return first;
    }

    /** The set that an escape stands for, from the character behind the backslash on. */
    private OneOf kind() {
        char c = pattern.charAt(at);
        at++;
        OneOf made = new OneOf();
        made.anyCase = anyCase;
        made.negated = c == 'D' || c == 'W' || c == 'S';
        if (c == 'd' || c == 'D') {
            made.ranges = "09";
        } else if (c == 'w' || c == 'W') {
            made.ranges = "azAZ09__";
        } else if (c == 's' || c == 'S') {
            made.ranges = "  \t\r";
        } else if (c == 't') {
            made.ranges = "\t\t";
        } else if (c == 'n') {
            made.ranges = "\n\n";
        } else if (c == 'r') {
            made.ranges = "\r\r";
        } else if (c == 'f') {
            made.ranges = "\f\f";
        } else if (c == 'p' || c == 'P') {
            made.ranges = property();
            made.negated = c == 'P';
        } else if (Character.isLetterOrDigit(c)) {
            throw wrong("Illegal/unsupported escape sequence");
        } else {
            made.ranges = "" + c + c;
        }
        return made;
    }

    private String property() {
        int end = is('{') ? pattern.indexOf("}", at) : at + 1;
        String name = is('{') ? pattern.substring(at + 1, end) : pattern.substring(at, end);
        at = is('{') ? end + 1 : end;
        if (name.equals("Punct")) {
            return "!/:@[`{~";
        }
        if (name.equals("Lower")) {
            return "az";
        }
        if (name.equals("Upper")) {
            return "AZ";
        }
        if (name.equals("Alpha")) {
            return "azAZ";
        }
        if (name.equals("Digit")) {
            return "09";
        }
        if (name.equals("Alnum")) {
            return "azAZ09";
        }
        if (name.equals("Space")) {
            return "  \t\r";
        }
        throw new UnsupportedOperationException("the property " + name + " in the pattern " + pattern);
    }

    private OneOf set() {
        OneOf all = new OneOf();
        all.anyCase = anyCase;
        all.negated = take("^");
        boolean first = true;
        while (at < pattern.length() && (first || !is(']'))) {
            first = false;
            if (pattern.startsWith("&&", at)) {
                throw new UnsupportedOperationException("&& in the pattern " + pattern);
            }
            OneOf one;
            if (take("[")) {
                one = set();
            } else if (take("\\")) {
                one = kind();
            } else {
                one = range(pattern.charAt(at), pattern.charAt(at));
                at++;
            }
            boolean single = !one.negated && one.also.isEmpty() && one.ranges.length() == 2
                && one.ranges.charAt(0) == one.ranges.charAt(1);
            if (single && is('-') && at + 1 < pattern.length() && pattern.charAt(at + 1) != ']') {
                at++;
                char end = pattern.charAt(at);
                at++;
                if (end == '\\') {
                    end = kind().ranges.charAt(0);
                }
                if (end < one.ranges.charAt(0)) {
                    throw wrong("Illegal character range");
                }
                one.ranges = "" + one.ranges.charAt(0) + end;
            }
            join(all, one);
        }
        if (!take("]")) {
            throw wrong("Unclosed character class");
        }
        return all;
    }

    private static void join(OneOf all, OneOf one) {
        if (!one.negated && one.also.isEmpty()) {
            all.ranges = all.ranges + one.ranges;
        } else {
            all.also.add(one);
        }
    }
}
