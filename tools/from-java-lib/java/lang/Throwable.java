package java.lang;

public class Throwable {
    private String message;
    private Throwable cause;
    private Throwable[] suppressed;

    public Throwable() {
    }

    public Throwable(String message) {
        this.message = message;
    }

    public Throwable(String message, Throwable cause) {
        this.message = message;
        this.cause = cause;
    }

    public Throwable(Throwable cause) {
        this.message = cause == null ? null : cause.toString();
        this.cause = cause;
    }

    public String getMessage() {
        return message;
    }

    public String getLocalizedMessage() {
        return getMessage();
    }

    public Throwable getCause() {
        return cause;
    }

    public String toString() {
        String text = getLocalizedMessage();
        String name = getClass().getName();
        if (text == null) {
            return name;
        }
        return name + ": " + text;
    }

    public final void addSuppressed(Throwable other) {
        Throwable[] more = new Throwable[getSuppressed().length + 1];
        for (int k = 0; k + 1 < more.length; k++) {
            more[k] = suppressed[k];
        }
        more[more.length - 1] = other;
        suppressed = more;
    }

    public final Throwable[] getSuppressed() {
        return suppressed == null ? new Throwable[0] : suppressed;
    }

    public Throwable initCause(Throwable cause) {
        this.cause = cause;
        return this;
    }

    /** What goes to the error output is left out. */
    public void printStackTrace() {
    }
}
