import java.util.*;
import java.util.regex.Matcher;
import java.util.regex.Pattern;

public class Patterns {
    private static final Pattern TOKEN = Pattern.compile("\\s*(?:(\\d+)|([A-Za-z_]\\w*)|(==|<=|>=|[-+*/()=<>]))");
    private static final Pattern DATE = Pattern.compile("(?<year>\\d{4})-(?<month>\\d{2})-(?<day>\\d{2})");

    static List<String> lex(String s) {
        List<String> out = new ArrayList<>();
        Matcher m = TOKEN.matcher(s);
        int end = 0;
        while (m.find() && m.start() == end) {
            if (m.group(1) != null) out.add("NUM:" + m.group(1));
            else if (m.group(2) != null) out.add("ID:" + m.group(2));
            else out.add("OP:" + m.group(3));
            end = m.end();
        }
        if (end < s.trim().length()) out.add("ERR@" + end);
        return out;
    }

    public static void main(String[] args) {
        System.out.println(lex("x1 = 3*(y + 42) <= z"));
        System.out.println(lex("a $ b"));
        Matcher d = DATE.matcher("from 2021-03-04 to 2022-12-25.");
        while (d.find()) System.out.println(d.group("day") + "." + d.group("month") + "." + d.group("year") + " @" + d.start());
        System.out.println("Hello, World! 123".replaceAll("[^a-zA-Z]", "").toLowerCase());
        System.out.println("a1b22c333".replaceAll("(\\d+)", "<$1>"));
        System.out.println(Arrays.toString("one, two;three  four".split("[,;\\s]+")));
        System.out.println("john@example.com".matches("[\\w.]+@[\\w.]+\\.[a-z]{2,}") + " " + "bad@x".matches("[\\w.]+@[\\w.]+\\.[a-z]{2,}"));
        System.out.println("aaa".replaceFirst("a", "b") + " " + "x.y.z".replace(".", "/") + " " + "x.y.z".replaceAll("\\.", "-"));
        System.out.println(Arrays.toString("a|b|c".split("\\|")) + Arrays.toString("k=v=w".split("=", 2)) + Arrays.toString("a,b,,".split(",")));
        System.out.println("racecar madam hello".replaceAll("\\b(\\w)(\\w*)\\b", "$2$1"));
        System.out.println("<b>bold</b><i>it</i>".replaceAll("<.*?>", ""));
        System.out.println("camelCaseString".replaceAll("([a-z])([A-Z])", "$1_$2").toLowerCase());
        System.out.println(Pattern.matches("(ab|cd)*e?", "ababcde") + " " + "abcabc".matches("(abc)\\1"));
        String text = "It was the best of times, it was the worst of times";
        Map<String, Integer> freq = new TreeMap<>();
        for (String w : text.toLowerCase().split("\\W+")) freq.merge(w, 1, Integer::sum);
        System.out.println(freq);
        StringTokenizer st = new StringTokenizer("the quick\tbrown fox");
        System.out.print(st.countTokens() + ":");
        while (st.hasMoreTokens()) System.out.print(" " + st.nextToken());
        System.out.println();
        System.out.println("(?i)abc -> " + "xABCx".replaceAll("(?i)abc", "_") + " " + "2024".matches("^\\d{4}$"));
    }
}
