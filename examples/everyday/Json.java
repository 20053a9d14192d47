import java.util.ArrayList;
import java.util.LinkedHashMap;
import java.util.List;
import java.util.Map;

/** A small JSON parser and pretty printer (integers only). */
public class Json {
    private final String text;
    private int pos = 0;

    public Json(String text) {
        this.text = text;
    }

    public static Object parse(String text) {
        Json p = new Json(text);
        Object value = p.value();
        p.skipWhitespace();
        if (p.pos != text.length()) {
            throw p.error("trailing characters");
        }
        return value;
    }

    private RuntimeException error(String message) {
        return new RuntimeException(message + " at " + pos);
    }

    private void skipWhitespace() {
        while (pos < text.length() && Character.isWhitespace(text.charAt(pos))) pos++;
    }

    private char peek() {
        return pos < text.length() ? text.charAt(pos) : '\0';
    }

    private void expect(char c) {
        if (peek() != c) throw error("expected '" + c + "' but found '" + peek() + "'");
        pos++;
    }

    private Object value() {
        skipWhitespace();
        char c = peek();
        switch (c) {
            case '{':
                return object();
            case '[':
                return array();
            case '"':
                return string();
            case 't':
                return literal("true", Boolean.TRUE);
            case 'f':
                return literal("false", Boolean.FALSE);
            case 'n':
                return literal("null", null);
            default:
                if (c == '-' || Character.isDigit(c)) return number();
                throw error("unexpected character '" + c + "'");
        }
    }

    private Object literal(String word, Object result) {
        if (!text.startsWith(word, pos)) throw error("unknown literal");
        pos += word.length();
        return result;
    }

    private Map<String, Object> object() {
        Map<String, Object> map = new LinkedHashMap<>();
        expect('{');
        skipWhitespace();
        if (peek() == '}') {
            pos++;
            return map;
        }
        do {
            skipWhitespace();
            String key = string();
            skipWhitespace();
            expect(':');
            map.put(key, value());
            skipWhitespace();
        } while (consume(','));
        expect('}');
        return map;
    }

    private boolean consume(char c) {
        if (peek() == c) {
            pos++;
            return true;
        }
        return false;
    }

    private List<Object> array() {
        List<Object> list = new ArrayList<>();
        expect('[');
        skipWhitespace();
        if (consume(']')) return list;
        do {
            list.add(value());
            skipWhitespace();
        } while (consume(','));
        expect(']');
        return list;
    }

    private String string() {
        expect('"');
        StringBuilder sb = new StringBuilder();
        while (peek() != '"') {
            char c = peek();
            if (c == '\0') throw error("unterminated string");
            if (c == '\\') {
                pos++;
                switch (peek()) {
                    case 'n': sb.append('\n'); break;
                    case 't': sb.append('\t'); break;
                    default: sb.append(peek());
                }
            } else {
                sb.append(c);
            }
            pos++;
        }
        pos++;
        return sb.toString();
    }

    private Integer number() {
        int start = pos;
        if (peek() == '-') pos++;
        while (Character.isDigit(peek())) pos++;
        return Integer.valueOf(text.substring(start, pos));
    }

    static String pretty(Object value, int indent) {
        String pad = "  ".repeat(indent);
        if (value == null) return "null";
        if (value instanceof String) return "\"" + ((String) value).replace("\n", "\\n") + "\"";
        if (value instanceof Map) {
            @SuppressWarnings("unchecked")
            Map<String, Object> map = (Map<String, Object>) value;
            if (map.isEmpty()) return "{}";
            StringBuilder out = new StringBuilder("{\n");
            int i = 0;
            for (Map.Entry<String, Object> e : map.entrySet()) {
                out.append(pad).append("  \"").append(e.getKey()).append("\": ").append(pretty(e.getValue(), indent + 1));
                if (++i < map.size()) out.append(',');
                out.append('\n');
            }
            return out.append(pad).append('}').toString();
        }
        if (value instanceof List<?> list) {
            StringBuilder out = new StringBuilder("[");
            String separator = "";
            for (Object o : list) {
                out.append(separator).append(pretty(o, indent));
                separator = ", ";
            }
            return out + "]";
        }
        return value.toString();
    }

    public static void main(String[] args) {
        String[] inputs = {
            "{\"name\": \"Kim\", \"age\": 31, \"tags\": [\"a\", \"b\\nc\", true, null], \"nested\": {\"x\": -5, \"empty\": {}}}",
            "[1, 2, [3, [4]], {}]",
            "{\"broken\": }",
            "[1, 2",
            "tru",
            "\"open",
        };
        for (String input : inputs) {
            try {
                System.out.println(pretty(parse(input), 0));
            } catch (RuntimeException e) {
                System.out.println("error: " + e.getMessage());
            }
        }
    }
}
