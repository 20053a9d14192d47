package java.util.regex;

public class PatternSyntaxException extends IllegalArgumentException {
    public PatternSyntaxException(String message, String pattern, int at) {
        super(message + " near index " + at + "\n" + pattern);
    }
}
