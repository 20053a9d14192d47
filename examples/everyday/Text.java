/** What can be done with strings: ciphers, counting, wrapping, run lengths. */
public class Text {
    static String caesar(String text, int by) {
        StringBuilder made = new StringBuilder();
        for (char c : text.toCharArray()) {
            if (c >= 'a' && c <= 'z') {
                made.append((char) ('a' + (c - 'a' + by + 26) % 26));
            } else if (Character.isUpperCase(c)) {
                c += by;
                if (c > 'Z') c -= 26;
                made.append(c);
            } else {
                made.append(c);
            }
        }
        return made.toString();
    }

    static String reverse(String text) {
        String turned = "";
        for (int i = text.length() - 1; i >= 0; i--) turned += text.charAt(i);
        return turned;
    }

    static String runs(String text) {
        if (text.isEmpty()) return "";
        StringBuilder made = new StringBuilder();
        char last = text.charAt(0);
        int count = 0;
        for (int i = 0; i <= text.length(); i++) {
            char c = i < text.length() ? text.charAt(i) : '\0';
            if (c == last) {
                count++;
                continue;
            }
            made.append(last);
            if (count > 1) made.append(count);
            last = c;
            count = 1;
        }
        return made.toString();
    }

    static void wrap(String text, int width) {
        String line = "";
        for (String word : text.split("\\s+")) {
            if (line.length() + word.length() + 1 > width && !line.isEmpty()) {
                System.out.println("|" + line + " ".repeat(width - line.length()) + "|");
                line = "";
            }
            line += line.isEmpty() ? word : " " + word;
        }
        System.out.println("|" + line);
    }

    static int vowels(String text) {
        int n = 0;
        for (int i = 0; i < text.length(); i++) {
            if ("aeiou".indexOf(Character.toLowerCase(text.charAt(i))) >= 0) n++;
        }
        return n;
    }

    static String title(String text) {
        String[] words = text.trim().split(" ");
        for (int i = 0; i < words.length; i++) {
            words[i] = words[i].substring(0, 1).toUpperCase() + words[i].substring(1).toLowerCase();
        }
        return String.join(" ", words);
    }

    static int number(String roman) {
        String signs = "IVXLCDM";
        int[] values = {1, 5, 10, 50, 100, 500, 1000};
        int sum = 0, last = 0;
        for (int i = roman.length() - 1; i >= 0; i--) {
            int value = values[signs.indexOf(roman.charAt(i))];
            sum += value < last ? -value : value;
            last = value;
        }
        return sum;
    }

    public static void main(String[] args) {
        String text = "Hello, World of Kaba";
        System.out.println(caesar(text, 3) + " / " + caesar(caesar(text, 3), 23));
        System.out.println(reverse(text) + " " + new StringBuilder(text).reverse().toString().equals(reverse(text)));
        System.out.println(runs("aaabccdddd") + " " + runs("x") + runs(""));
        wrap("the quick brown   fox jumps over the lazy dog and runs away", 16);
        System.out.println(vowels(text) + " " + title("  the END of it ") + " " + number("MCMXCIV"));
        System.out.println(text.contains("World") + " " + text.startsWith("Hell") + " " + text.endsWith("a") + " "
            + text.lastIndexOf('o')
            + " " + text.replace('l', 'L').replace("Ka", "ka-") + " " + text.compareTo("Help") + " "
                + "b".compareToIgnoreCase("A"));
        StringBuilder b = new StringBuilder("0123456789");
        b.insert(3, "abc").deleteCharAt(0).setCharAt(1, '-');
        b.delete(4, 6).append(1 == 1).append(null == text).append(7 / 2);
        System.out.println(b + " " + b.length() + " " + b.indexOf("true") + " " + "a,b,,c,,".split(",").length);
        int x = 'a' + 1;
        char y = (char) x;
        y++;
        System.out.println(x + " " + y + " " + (char) (y + 1) + 'a' + 1 + " " + ('a' + 'b') + " " + (int) 'A'
            + "\t\"\\" + (args.length > 0 ? args[0] : "none"));
        System.out.println("abc".hashCode() + " " + "x".equals("X".toLowerCase()) + " " + "Ab".equalsIgnoreCase("aB")
            + " " + String.valueOf(new char[] {'o', 'k'}));
    }
}
