package java.lang;

public class AssertionError extends Error {
    public AssertionError() {
    }

    public AssertionError(String message) {
        super(message);
    }

    public AssertionError(Object detail) {
        super("" + detail);
    }

    public AssertionError(int detail) {
        super("" + detail);
    }

    public AssertionError(String message, Throwable cause) {
        super(message, cause);
    }
}
