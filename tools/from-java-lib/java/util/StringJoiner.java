package java.util;

public final class StringJoiner {
    private String before;
    private String between;
    private String behind;
    private String text;
    private String none;

    public StringJoiner(String between) {
        this(between, "", "");
    }

    public StringJoiner(String between, String before, String behind) {
        this.between = between;
        this.before = before;
        this.behind = behind;
    }

    public StringJoiner add(String part) {
        text = text == null ? "" + part : text + between + part;
        return this;
    }

    public StringJoiner add(CharSequence part) {
        return add("" + part);
    }

    public StringJoiner setEmptyValue(String text) {
        none = text;
        return this;
    }

    public int length() {
        return toString().length();
    }

    public String toString() {
        if (text == null && none != null) {
            return none;
        }
        return before + (text == null ? "" : text) + behind;
    }
}
